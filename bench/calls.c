/* Runs of calls. Each loop stands around the call itself, so that little more than the call is timed. */
#include "calls.h"

static void run_pack(any_call *call, const inputs *in, size_t from, size_t to, answer *out)
{
    __typeof__(wspr_pack) *typed = (__typeof__(wspr_pack) *)call;

    for (const message *m = in->messages + from; m < in->messages + to; m++)
        out->result.word = typed(m->callsign, in->callsign_len, m->locator, in->locator_len, m->power);
}

static void run_unpack(any_call *call, const inputs *in, size_t from, size_t to, answer *out)
{
    __typeof__(wspr_unpack) *typed = (__typeof__(wspr_unpack) *)call;

    for (size_t i = from; i < to; i++)
        out->result.message = typed(in->words[i], out->callsign, in->callsign_len, out->locator, in->locator_len);
}

static void run_write_word(any_call *call, const inputs *in, size_t from, size_t to, answer *out)
{
    __typeof__(wspr_write_word) *typed = (__typeof__(wspr_write_word) *)call;

    for (size_t i = from; i < to; i++)
        out->result.written = typed(in->words[i], out->frame, in->frame_len);
}

static void run_write_message(any_call *call, const inputs *in, size_t from, size_t to, answer *out)
{
    __typeof__(wspr_write_message) *typed = (__typeof__(wspr_write_message) *)call;

    for (const message *m = in->messages + from; m < in->messages + to; m++)
        out->result.written = typed(m->callsign, in->callsign_len, m->locator, in->locator_len, m->power, out->frame,
                                    in->frame_len);
}

static void run_read_word(any_call *call, const inputs *in, size_t from, size_t to, answer *out)
{
    __typeof__(wspr_read_word) *typed = (__typeof__(wspr_read_word) *)call;

    for (size_t i = from; i < to; i++)
        out->result.word = typed(in->frames[i], in->frame_len);
}

static void run_read_message(any_call *call, const inputs *in, size_t from, size_t to, answer *out)
{
    __typeof__(wspr_read_message) *typed = (__typeof__(wspr_read_message) *)call;

    for (size_t i = from; i < to; i++)
        out->result.message = typed(in->frames[i], in->frame_len, out->callsign, in->callsign_len, out->locator,
                                    in->locator_len);
}

static void run_repair(any_call *call, const inputs *in, size_t from, size_t to, answer *out)
{
    __typeof__(wspr_repair) *typed = (__typeof__(wspr_repair) *)call;

    for (size_t i = from; i < to; i++)
        out->result.repaired = typed(in->frames[i], in->frame_len, in->limit, in->budget);
}

static void run_write_report(any_call *call, const inputs *in, size_t from, size_t to, answer *out)
{
    __typeof__(u4b_write) *typed = (__typeof__(u4b_write) *)call;

    for (const u4b_reading *r = in->reports + from; r < in->reports + to; r++)
        out->result.message = typed(r->first, r->third, r->grid5, r->grid6, r->altitude, r->temperature, r->voltage,
                                    r->speed, r->gps, out->callsign, in->callsign_len, out->locator, in->locator_len);
}

static void run_read_report(any_call *call, const inputs *in, size_t from, size_t to, answer *out)
{
    __typeof__(u4b_read) *typed = (__typeof__(u4b_read) *)call;

    for (const message *m = in->messages + from; m < in->messages + to; m++)
        out->result.reading = typed(m->callsign, in->callsign_len, m->locator, in->locator_len, m->power);
}

#define ANY(call) ((any_call *)(call))

const layer pack = {run_pack, {ANY(wspr_pack), ANY(hand_pack)}, sizeof(wspr_word), spoil_message};
const layer unpack = {run_unpack, {ANY(wspr_unpack), ANY(hand_unpack)}, sizeof(wspr_message), spoil_word};
const layer write_word = {
    run_write_word, {ANY(wspr_write_word), ANY(hand_write_word)}, sizeof(wspr_written), spoil_word,
};
const layer write_message = {
    run_write_message, {ANY(wspr_write_message), ANY(hand_write_message)}, sizeof(wspr_written), spoil_message,
};
const layer read_word = {run_read_word, {ANY(wspr_read_word), ANY(hand_read_word)}, sizeof(wspr_word), spoil_frame};
const layer read_message = {
    run_read_message, {ANY(wspr_read_message), ANY(hand_read_message)}, sizeof(wspr_message), spoil_frame,
};
const layer repair = {
    run_repair, {ANY(wspr_repair), ANY(plain_repair), ANY(tuned_repair)}, sizeof(wspr_repaired), spoil_frame,
};
const layer write_report = {
    run_write_report, {ANY(u4b_write), ANY(hand_u4b_write)}, sizeof(wspr_message), spoil_report,
};
const layer read_report = {
    run_read_report, {ANY(u4b_read), ANY(hand_u4b_read)}, sizeof(u4b_reading), spoil_message_of_report,
};

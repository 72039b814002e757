/* Calls the nine exports with hostile input and holds every answer to what can be told without a second implementation.
 * Each lent buffer is a block of its own of exactly its length, so that valgrind sees a byte too far; the sanitizers see
 * the C code only. */
#include <inttypes.h>
#include <stdio.h>
#include <stdlib.h>
#include <string.h>

#include "exports.h"
#include "hostile_input.h"
#include "wsprcard.h"

/* The largest place that goes with each refusal; 0 is success. */
static const uint32_t last_places[REFUSALS] = {[2] = 9, [7] = 161, [8] = 161, [10] = 5, [14] = 8, [15] = 1};

static const struct refusal wrong_length = {1, 0};

static const char as_capitals[] = "a message is answered as its capital form is";
static const char in_capitals[] = "what is written has capitals only";

/* Which call is being held to its promises. */
static enum export current;
static unsigned long round_number;

/* A block of its own, and what it held when it was lent. */
struct lent {
    uint8_t *bytes, *before;
    size_t len;
};

static void hold(int kept, const char *promise)
{
    if (kept)
        return;
    printf("hostile: %s in round %lu: broken: %s\n", export_name(current), round_number, promise);
    exit(1);
}

static uint8_t *block(const struct content *c)
{
    uint8_t *bytes = malloc(c->len);

    if (!bytes && c->len > 0) {
        puts("hostile: out of memory");
        exit(1);
    }
    if (c->len > 0)
        memcpy(bytes, c->bytes, c->len);
    return bytes;
}

/* An empty buffer is NULL or an empty block. */
static struct lent lend(struct generator *g, const struct content *c)
{
    struct lent l = {NULL, NULL, c->len};

    if (c->len > 0 || draw_once_in(g, 2))
        l.bytes = block(c);
    l.before = block(c);
    return l;
}

static int is_unchanged(const struct lent *l)
{
    return l->len == 0 || memcmp(l->bytes, l->before, l->len) == 0;
}

/* Whether these are the bytes that were given, with small letters as their capitals. */
static int is_capital_form(const uint8_t *bytes, const uint8_t *given, size_t len)
{
    for (size_t i = 0; i < len; i++)
        if (bytes[i] != capital_of(given[i]))
            return 0;
    return 1;
}

static int has_capitals_only(const struct lent *l)
{
    return is_capital_form(l->bytes, l->bytes, l->len);
}

/* Whether a callsign and a locator have their lengths. */
static int fit(const struct lent *callsign, const struct lent *locator)
{
    return callsign->len == CALLSIGN_LEN && locator->len == LOCATOR_LEN;
}

static void give_back(struct lent *l)
{
    free(l->bytes);
    free(l->before);
}

/* What holds of the refusal and the place of every answer. */
static void answered(uint32_t refusal, uint32_t place)
{
    hold(may_refuse(current, refusal), "it gives only its own refusals");
    hold(place <= last_places[refusal], "the place is one of the refusal's");
    hold(refusal != 10 || (place != 1 && place != 2), "refusal 10 has place 0 or 3 to 5");
    count_answer(current, refusal);
}

/* Where it is known from the input what is to be refused. */
static void hold_refused(uint32_t refusal, uint32_t place, struct refusal expected)
{
    hold(refusal == expected.number, "it refuses by the number that the input calls for, and right input never");
    hold(place == expected.place, "the place is that of the first fault");
}

/* Read-only buffers; and all buffers where the call is refused. */
static void hold_unchanged(const struct lent *one, const struct lent *other)
{
    hold(is_unchanged(one) && is_unchanged(other), "a buffer that is only read, or of a refused call, isn't written");
}

/* The first symbol that is above 3; FRAME_LEN if none is. */
static uint32_t first_large(const uint8_t *frame)
{
    uint32_t place = 0;

    while (place < FRAME_LEN && frame[place] <= 3)
        place++;
    return place;
}

/* At how many places this bit of two frames differs: 1 is the sync bit, 2 the data bit. */
static uint32_t differing(const uint8_t *one, const uint8_t *other, uint8_t bit, uint32_t *first)
{
    uint32_t count = 0;

    *first = FRAME_LEN;
    for (uint32_t i = 0; i < FRAME_LEN; i++) {
        if (((one[i] ^ other[i]) & bit) == 0)
            continue;
        if (count++ == 0)
            *first = i;
    }
    return count;
}

/* The sync bits of all frames are those of the word 0. */
static uint32_t sync_wrong(const uint8_t *frame, uint32_t *first)
{
    uint8_t zero[FRAME_LEN];

    wspr_write_word(0, zero, FRAME_LEN);
    return differing(frame, zero, 1, first);
}

static void hold_frame(const uint8_t *frame)
{
    uint32_t first;

    hold(first_large(frame) == FRAME_LEN, "the symbols of a frame are 0 to 3");
    hold(sync_wrong(frame, &first) == 0, "all frames have the same sync bits");
}

static void hold_word_of(const uint8_t *callsign, const uint8_t *locator, uint32_t power, uint64_t word)
{
    wspr_word w = wspr_pack(callsign, CALLSIGN_LEN, locator, LOCATOR_LEN, power);

    hold(w.refusal == 0 && w.word == word, "the message is packed into the word that it came from");
}

static void hold_message_of(uint64_t word, const uint8_t *callsign, const uint8_t *locator, uint32_t power)
{
    uint8_t own_callsign[CALLSIGN_LEN], own_locator[LOCATOR_LEN];
    wspr_message m = wspr_unpack(word, own_callsign, CALLSIGN_LEN, own_locator, LOCATOR_LEN);

    hold(m.refusal == 0 && m.power == power, "the word is read as the message that it came from");
    hold(is_capital_form(own_callsign, callsign, CALLSIGN_LEN), "the word has the callsign in capitals");
    hold(is_capital_form(own_locator, locator, LOCATOR_LEN), "the word has the locator in capitals");
}

/* Lends the capital form of a message. */
static void lend_capitals(struct generator *g, const struct message_input *given, struct lent *callsign,
                          struct lent *locator)
{
    struct message_input m = *given;

    make_capital_form(&m);
    *callsign = lend(g, &m.callsign);
    *locator = lend(g, &m.locator);
}

static void hold_packed_as_capitals(struct generator *g, const struct message_input *m, wspr_word w)
{
    struct lent callsign, locator;
    wspr_word same;

    lend_capitals(g, m, &callsign, &locator);
    same = wspr_pack(callsign.bytes, callsign.len, locator.bytes, locator.len, m->power);
    hold(same.refusal == w.refusal && same.place == w.place && same.word == w.word, as_capitals);
    give_back(&callsign);
    give_back(&locator);
}

static void try_pack(struct generator *g)
{
    struct message_input m;
    struct lent callsign, locator;
    wspr_word w;

    draw_message(g, &m);
    callsign = lend(g, &m.callsign);
    locator = lend(g, &m.locator);
    w = wspr_pack(callsign.bytes, callsign.len, locator.bytes, locator.len, m.power);
    answered(w.refusal, w.place);
    hold_unchanged(&callsign, &locator);
    hold_refused(w.refusal, w.place, message_refusal(&m));
    if (w.refusal) {
        hold(w.word == 0, "a refusal's word is 0");
    } else {
        hold(w.word < WORDS, "a word is below 2^50");
        hold_message_of(w.word, callsign.bytes, locator.bytes, m.power);
    }
    hold_packed_as_capitals(g, &m, w);
    give_back(&callsign);
    give_back(&locator);
}

static void try_unpack(struct generator *g)
{
    struct content c, l;
    struct lent callsign, locator;
    uint64_t word = draw_word(g);
    wspr_message m;

    draw_buffer(g, &c, CALLSIGN_LEN);
    draw_buffer(g, &l, LOCATOR_LEN);
    callsign = lend(g, &c);
    locator = lend(g, &l);
    m = wspr_unpack(word, callsign.bytes, callsign.len, locator.bytes, locator.len);
    answered(m.refusal, m.place);
    hold_refused(m.refusal, m.place, fit(&callsign, &locator) ? word_refusal(word) : wrong_length);
    if (m.refusal) {
        hold_unchanged(&callsign, &locator);
        hold(m.power == 0, "a refusal's power is 0");
    } else {
        hold(is_power(m.power), "the power is one of the 19");
        hold(has_capitals_only(&callsign) && has_capitals_only(&locator), in_capitals);
        hold_word_of(callsign.bytes, locator.bytes, m.power, word);
    }
    give_back(&callsign);
    give_back(&locator);
}

static void try_write_word(struct generator *g)
{
    struct content f;
    struct lent frame;
    uint64_t word = draw_word(g);
    wspr_written w;

    draw_buffer(g, &f, FRAME_LEN);
    frame = lend(g, &f);
    w = wspr_write_word(word, frame.bytes, frame.len);
    answered(w.refusal, w.place);
    hold_refused(w.refusal, w.place, f.len == FRAME_LEN ? (struct refusal){word < WORDS ? 0 : 4, 0} : wrong_length);
    if (w.refusal) {
        hold_unchanged(&frame, &frame);
    } else {
        wspr_word back = wspr_read_word(frame.bytes, FRAME_LEN);

        hold_frame(frame.bytes);
        hold(back.refusal == 0 && back.word == word, "the frame is read as the word that it was written from");
    }
    give_back(&frame);
}

/* The frame that was written is read as this message. */
static void hold_message_in(const uint8_t *frame, const struct message_input *m)
{
    uint8_t callsign[CALLSIGN_LEN], locator[LOCATOR_LEN];
    wspr_message back = wspr_read_message(frame, FRAME_LEN, callsign, CALLSIGN_LEN, locator, LOCATOR_LEN);

    hold(back.refusal == 0 && back.power == m->power, "the frame is read as the message that it was written from");
    hold(is_capital_form(callsign, m->callsign.bytes, CALLSIGN_LEN), "the frame has the callsign in capitals");
    hold(is_capital_form(locator, m->locator.bytes, LOCATOR_LEN), "the frame has the locator in capitals");
}

/* Where the frame has its length: what was written in it, or that nothing was. */
static void hold_written_as_capitals(struct generator *g, const struct message_input *m, const struct lent *frame,
                                     wspr_written w)
{
    struct lent callsign, locator;
    uint8_t own[FRAME_LEN];
    wspr_written same;

    lend_capitals(g, m, &callsign, &locator);
    memcpy(own, frame->before, FRAME_LEN);
    same = wspr_write_message(callsign.bytes, callsign.len, locator.bytes, locator.len, m->power, own, FRAME_LEN);
    hold(same.refusal == w.refusal && same.place == w.place, as_capitals);
    hold(memcmp(own, frame->bytes, FRAME_LEN) == 0, "the frame is that of the capital form");
    give_back(&callsign);
    give_back(&locator);
}

static void try_write_message(struct generator *g)
{
    struct message_input m;
    struct content f;
    struct lent callsign, locator, frame;
    wspr_written w;

    draw_message(g, &m);
    draw_buffer(g, &f, FRAME_LEN);
    callsign = lend(g, &m.callsign);
    locator = lend(g, &m.locator);
    frame = lend(g, &f);
    w = wspr_write_message(callsign.bytes, callsign.len, locator.bytes, locator.len, m.power, frame.bytes, frame.len);
    answered(w.refusal, w.place);
    hold_unchanged(&callsign, &locator);
    hold_refused(w.refusal, w.place, f.len == FRAME_LEN ? message_refusal(&m) : wrong_length);
    if (w.refusal) {
        hold_unchanged(&frame, &frame);
    } else {
        hold_frame(frame.bytes);
        hold_message_in(frame.bytes, &m);
    }
    if (frame.len == FRAME_LEN)
        hold_written_as_capitals(g, &m, &frame, w);
    give_back(&callsign);
    give_back(&locator);
    give_back(&frame);
}

/* What the refusals of strict reading say of the symbols. */
static void hold_frame_refusal(const struct lent *frame, uint32_t refusal, uint32_t place)
{
    uint32_t first;

    if (refusal == 7)
        hold(place == first_large(frame->bytes), "refusal 7 has the place of the first symbol above 3");
    if (refusal != 8)
        return;
    hold(first_large(frame->bytes) == FRAME_LEN, "refusal 7 goes before refusal 8");
    sync_wrong(frame->bytes, &first);
    hold(place == first, "refusal 8 has the place of the first wrong sync bit");
}

/* What is known of the refusal where the frame came from a word. */
static void hold_strict(const struct frame_input *f, uint32_t refusal)
{
    int clean = f->of_word && f->symbols.len == FRAME_LEN && !f->spoiled;

    if (clean && f->sync_wrong > 0)
        hold(refusal == 8, "a wrong sync bit is refused 8");
    if (clean && f->sync_wrong == 0 && (f->flips == 1 || f->flips == 2))
        hold(refusal == 9, "one or two flipped data bits are refused 9");
}

static void try_read_word(struct generator *g)
{
    struct frame_input f;
    struct lent frame;
    wspr_word w;

    draw_frame(g, &f);
    frame = lend(g, &f.symbols);
    w = wspr_read_word(frame.bytes, frame.len);
    answered(w.refusal, w.place);
    hold_unchanged(&frame, &frame);
    hold((w.refusal == 1) == (frame.len != FRAME_LEN), "refusal 1 is that of a wrong length");
    hold_frame_refusal(&frame, w.refusal, w.place);
    hold_strict(&f, w.refusal);
    if (w.refusal) {
        int whole = f.of_word && f.flips + f.sync_wrong == 0 && !f.spoiled && frame.len == FRAME_LEN;

        hold(w.word == 0, "a refusal's word is 0");
        hold(!whole, "a word's own frame is read");
    } else {
        uint8_t own[FRAME_LEN];
        wspr_written back = wspr_write_word(w.word, own, FRAME_LEN);

        hold(w.word < WORDS, "a word is below 2^50");
        hold(back.refusal == 0 && memcmp(own, frame.bytes, FRAME_LEN) == 0, "the word is written as the frame read");
    }
    give_back(&frame);
}

static void hold_message_written(const struct lent *callsign, const struct lent *locator, uint32_t power,
                                 const uint8_t *frame)
{
    uint8_t own[FRAME_LEN];
    wspr_written w = wspr_write_message(callsign->bytes, callsign->len, locator->bytes, locator->len, power, own,
                                        FRAME_LEN);

    hold(is_power(power), "the power is one of the 19");
    hold(w.refusal == 0 && memcmp(own, frame, FRAME_LEN) == 0, "the message is written as the frame read");
}

/* First the frame is refused as it is in reading its word; then the lent lengths count, then the word. */
static void hold_chain(const struct lent *frame, int lent_fit, wspr_message m)
{
    wspr_word w = wspr_read_word(frame->bytes, frame->len);

    if (w.refusal)
        hold_refused(m.refusal, m.place, (struct refusal){w.refusal, w.place});
    else
        hold_refused(m.refusal, m.place, lent_fit ? word_refusal(w.word) : wrong_length);
}

static void try_read_message(struct generator *g)
{
    struct frame_input f;
    struct content c, l;
    struct lent frame, callsign, locator;
    wspr_message m;

    draw_frame(g, &f);
    draw_buffer(g, &c, CALLSIGN_LEN);
    draw_buffer(g, &l, LOCATOR_LEN);
    frame = lend(g, &f.symbols);
    callsign = lend(g, &c);
    locator = lend(g, &l);
    m = wspr_read_message(frame.bytes, frame.len, callsign.bytes, callsign.len, locator.bytes, locator.len);
    answered(m.refusal, m.place);
    hold_unchanged(&frame, &frame);
    hold_chain(&frame, fit(&callsign, &locator), m);
    hold_strict(&f, m.refusal);
    if (m.refusal) {
        hold_unchanged(&callsign, &locator);
        hold(m.power == 0, "a refusal's power is 0");
    } else {
        hold(has_capitals_only(&callsign) && has_capitals_only(&locator), in_capitals);
        hold_message_written(&callsign, &locator, m.power, frame.bytes);
    }
    give_back(&frame);
    give_back(&callsign);
    give_back(&locator);
}

/* What is promised of a repaired word: its own frame differs from the given one by just the counts of the answer. */
static void hold_repaired(const uint8_t *frame, uint32_t limit, uint32_t budget, wspr_repaired r)
{
    uint8_t own[FRAME_LEN];
    uint32_t first;
    wspr_written w = wspr_write_word(r.word, own, FRAME_LEN);
    wspr_repaired again = wspr_repair(frame, FRAME_LEN, r.disagreements, budget);

    hold(w.refusal == 0, "a repaired word is below 2^50");
    hold(r.disagreements <= limit, "the disagreements are within the limit");
    hold(r.live >= 81 && r.live <= budget, "the live count is 81 to the budget");
    hold(differing(own, frame, 2, &first) == r.disagreements, "the data bits differ in as many as the disagreements");
    hold(differing(own, frame, 1, &first) == r.sync_wrong, "the wrong sync bits are all counted");
    hold(again.refusal == 0 && again.word == r.word, "a limit of just the disagreements gives the same word");
    hold(again.live <= r.live, "a lower limit has no more live prefixes");
    hold(again.margin == 1, "at a limit of just the disagreements no other word is within it, and the margin is 1");
}

/* What is promised of the margin. Words are 28 data bits apart or more, so none but the answer is within the limit. */
static void hold_margin(uint32_t limit, wspr_repaired r)
{
    hold(r.margin >= 1, "the next nearest word has more disagreements");
    hold(r.disagreements + r.margin == limit + 1, "disagreements and margin are limit + 1 together");
}

/* The live count is the least budget that is enough. */
static void hold_live(const uint8_t *frame, uint32_t limit, wspr_repaired r)
{
    wspr_repaired enough = wspr_repair(frame, FRAME_LEN, limit, r.live);
    wspr_repaired less = wspr_repair(frame, FRAME_LEN, limit, r.live - 1);

    hold(enough.refusal == 0 && enough.word == r.word, "a budget of the live count is enough");
    hold(enough.margin == r.margin, "the budget doesn't change the margin");
    hold(less.refusal == 16, "a budget below the live count is refused 16");
}

/* What is promised of flipped data bits as many as the limit or fewer, of more, and of a word other than the sent one,
 * for limits and budgets within their bounds. */
static void hold_sent_word(const struct frame_input *f, uint32_t limit, wspr_repaired r)
{
    if (f->flips <= limit) {
        hold(r.refusal == 0 || r.refusal == 16, "flips within the limit are repaired, or out of budget");
        hold(r.refusal || (r.word == f->word && r.disagreements == f->flips), "the sent word is given, with its flips");
    } else if (f->flips + limit < 28) {
        hold(r.refusal == 17 || r.refusal == 16, "more flips than the limit, with it fewer than 28, give no word");
    }
    if (r.refusal == 0 && r.word != f->word) {
        hold(r.disagreements < f->flips, "another word is nearer than the one that was sent");
        hold(f->flips + r.disagreements >= 28, "another word takes 28 flipped data bits less its disagreements");
    }
}

/* What is promised of any symbols: the budget that is enough at a limit, and that 18 isn't given. */
static void hold_never(uint32_t limit, uint32_t budget, wspr_repaired r)
{
    static const uint32_t enough[] = {81, 131, 569, 3495, 17851};

    hold(r.refusal != 16 || limit >= COUNT(enough) || budget < enough[limit],
         "16 isn't given with a budget that is enough for every frame");
    hold(r.refusal != 18, "18 is never given");
}

/* What is promised of a clean frame's live count at limits up to 10: it is the least budget that gives the word. */
static void hold_clean(uint32_t limit, uint32_t budget, wspr_repaired r)
{
    static const uint32_t live[] = {81, 81, 131, 279, 569, 1573, 3495, 7611, 17851, 42557, 97265};

    hold(r.refusal == (budget < live[limit] ? 16 : 0), "a clean frame is given back with a budget of its live count");
    hold(r.refusal || r.live == live[limit], "a clean frame has the live count of the limit");
}

/* What is promised of the live count at limit 2 where one data bit is flipped, and for which bit it is the most. */
static void hold_one_flip(const struct frame_input *f, uint32_t budget, wspr_repaired r)
{
    uint8_t own[FRAME_LEN];
    int worst;

    wspr_write_word(f->word, own, FRAME_LEN);
    worst = (own[WORST_PLACE] ^ f->symbols.bytes[WORST_PLACE]) >> 1;
    hold(r.refusal == 0 || (r.refusal == 16 && budget < 135), "a budget of 135 is enough for one flipped data bit");
    hold(!worst || (r.refusal == 16) == (budget < 135), "where the bit at place 105 is flipped, no less is");
    hold(r.live <= 135, "with one flipped data bit the live count is at most 135");
    hold(r.refusal || (r.live == 135) == worst, "it is 135 where the bit at place 105 is flipped");
}

static void hold_repair_refusal(const struct lent *frame, uint32_t limit, uint32_t budget, wspr_repaired r)
{
    int out_of_range = limit > 12 || budget == 0 || budget > 65536;

    hold((r.refusal == 1) == (frame->len != FRAME_LEN), "refusal 1 is that of a wrong length");
    hold((r.refusal == 15) == (frame->len == FRAME_LEN && out_of_range), "refusal 15 is that of limit and budget");
    if (r.refusal == 15)
        hold(r.place == (limit <= 12), "refusal 15 has place 0 for the limit, 1 for the budget");
    if (r.refusal == 0)
        hold(first_large(frame->bytes) == FRAME_LEN, "a symbol above 3 isn't repaired");
    hold_frame_refusal(frame, r.refusal, r.place);
    if (r.refusal) {
        hold(r.word == 0 && r.disagreements == 0 && r.live == 0, "a refusal's numbers are 0");
        hold(r.sync_wrong == 0 && r.margin == 0, "a refusal's numbers are 0");
    }
}

static void try_repair(struct generator *g)
{
    struct frame_input f;
    struct lent frame;
    uint32_t limit = draw_limit(g), budget = draw_budget(g);
    wspr_repaired r;

    draw_frame(g, &f);
    frame = lend(g, &f.symbols);
    r = wspr_repair(frame.bytes, frame.len, limit, budget);
    answered(r.refusal, r.place);
    hold_unchanged(&frame, &frame);
    hold_repair_refusal(&frame, limit, budget, r);
    hold_never(limit, budget, r);
    if (f.of_word && !f.spoiled && frame.len == FRAME_LEN && r.refusal != 15) {
        hold_sent_word(&f, limit, r);
        if (f.flips == 0 && limit <= 10)
            hold_clean(limit, budget, r);
        if (f.flips == 1 && limit == 2)
            hold_one_flip(&f, budget, r);
    }
    if (r.refusal == 0) {
        hold_repaired(frame.bytes, limit, budget, r);
        hold_margin(limit, r);
        hold_live(frame.bytes, limit, r);
    }
    give_back(&frame);
}

/* The whole number of steps that is at most what was measured and less than one step below it. */
static int is_low_end(int64_t read, int64_t measured, int64_t step)
{
    return read % step == 0 && read <= measured && measured < read + step;
}

/* The message of a report is read as the low ends of its steps. */
static void hold_report_in(const struct report_input *r, const struct lent *callsign, const struct lent *locator,
                           uint32_t power)
{
    u4b_reading t = u4b_read(callsign->bytes, callsign->len, locator->bytes, locator->len, power);

    hold(is_power(power), "the power is one of the 19");
    hold(t.refusal == 0, "the message of a report is telemetry");
    hold(t.first == r->first && t.third == r->third, "the channel is read back");
    hold(t.grid5 == r->grid5 && t.grid6 == r->grid6, "the sub-square is read back");
    hold(is_low_end(t.altitude, r->altitude, 20), "the altitude is read as the low end of its step");
    hold(is_low_end(t.temperature * 10, r->temperature, 10), "the temperature is read as the low end of its step");
    hold(is_low_end(t.voltage, r->voltage, 50), "the voltage is read as the low end of its step");
    hold(is_low_end(t.speed * 10, r->speed, 20), "the speed is read as the low end of its step");
    hold(t.gps == r->gps, "GPS is read back");
}

static void try_u4b_write(struct generator *g)
{
    struct report_input r;
    struct content c, l;
    struct lent callsign, locator;
    wspr_message m;

    draw_report(g, &r);
    draw_buffer(g, &c, CALLSIGN_LEN);
    draw_buffer(g, &l, LOCATOR_LEN);
    callsign = lend(g, &c);
    locator = lend(g, &l);
    m = u4b_write(r.first, r.third, r.grid5, r.grid6, r.altitude, r.temperature, r.voltage, r.speed, r.gps,
                  callsign.bytes, callsign.len, locator.bytes, locator.len);
    answered(m.refusal, m.place);
    hold_refused(m.refusal, m.place, fit(&callsign, &locator) ? report_refusal(&r) : wrong_length);
    if (m.refusal) {
        hold_unchanged(&callsign, &locator);
        hold(m.power == 0, "a refusal's power is 0");
    } else {
        hold(has_capitals_only(&callsign) && has_capitals_only(&locator), in_capitals);
        hold_report_in(&r, &callsign, &locator, m.power);
    }
    give_back(&callsign);
    give_back(&locator);
}

/* What was read is in the ranges of reading, and is written as the same message again, in capitals. */
static void hold_reading(const struct message_input *m, u4b_reading t)
{
    uint8_t callsign[CALLSIGN_LEN], locator[LOCATOR_LEN];
    wspr_message back = u4b_write(t.first, t.third, t.grid5, t.grid6, t.altitude, t.temperature * 10, t.voltage,
                                  t.speed * 10, t.gps, callsign, CALLSIGN_LEN, locator, LOCATOR_LEN);

    hold(t.altitude <= 21340 && t.altitude % 20 == 0, "the altitude is 0 to 21,340 in steps of 20");
    hold(t.temperature >= -50 && t.temperature <= 39, "the temperature is -50 to 39");
    hold(t.voltage >= 3000 && t.voltage <= 4950 && t.voltage % 50 == 0, "the voltage is 3,000 to 4,950 in steps of 50");
    hold(t.speed <= 82 && t.speed % 2 == 0, "the speed is 0 to 82 in steps of 2");
    hold(back.refusal == 0 && back.power == m->power, "what is read is written as the same message");
    hold(is_capital_form(callsign, m->callsign.bytes, CALLSIGN_LEN), "what is read is written as the callsign in capitals");
    hold(is_capital_form(locator, m->locator.bytes, LOCATOR_LEN), "what is read is written as the locator in capitals");
}

/* The first character that telemetry never has: it must be 0, 1 or Q, small or capital, and 3 to 5 are no spaces.
 * CALLSIGN_LEN if all are telemetry's. */
static uint32_t first_not_telemetry(const uint8_t *callsign)
{
    uint32_t place = 3;

    if (callsign[0] != '0' && callsign[0] != '1' && capital_of(callsign[0]) != 'Q')
        return 0;
    while (place < CALLSIGN_LEN && callsign[place] != ' ')
        place++;
    return place;
}

static void hold_telemetry_refusal(const struct message_input *m, uint32_t refusal, uint32_t place)
{
    struct refusal expected = message_refusal(m);

    if (expected.number == 0 && first_not_telemetry(m->callsign.bytes) < CALLSIGN_LEN)
        expected = (struct refusal){10, first_not_telemetry(m->callsign.bytes)};
    if (expected.number)
        hold_refused(refusal, place, expected);
    else
        hold(refusal == 0 || refusal >= 11, "a telemetry callsign is refused 11, 12 or 13 only");
}

static void hold_read_as_capitals(struct generator *g, const struct message_input *m, u4b_reading t)
{
    struct lent callsign, locator;
    u4b_reading same;

    lend_capitals(g, m, &callsign, &locator);
    same = u4b_read(callsign.bytes, callsign.len, locator.bytes, locator.len, m->power);
    hold(memcmp(&same, &t, sizeof t) == 0, as_capitals); /* the struct has no padding */
    give_back(&callsign);
    give_back(&locator);
}

static void try_u4b_read(struct generator *g)
{
    struct message_input m;
    struct lent callsign, locator;
    u4b_reading t;

    draw_telemetry_message(g, &m);
    callsign = lend(g, &m.callsign);
    locator = lend(g, &m.locator);
    t = u4b_read(callsign.bytes, callsign.len, locator.bytes, locator.len, m.power);
    answered(t.refusal, t.place);
    hold_unchanged(&callsign, &locator);
    hold_telemetry_refusal(&m, t.refusal, t.place);
    if (t.refusal) {
        hold((t.first | t.third | t.grid5 | t.grid6) == 0, "a refusal's characters are 0");
        hold((t.altitude | (uint32_t)t.temperature | t.voltage | t.speed | t.gps) == 0, "a refusal's numbers are 0");
    } else {
        hold_reading(&m, t);
    }
    hold_read_as_capitals(g, &m, t);
    give_back(&callsign);
    give_back(&locator);
}

static void (*const tries[EXPORTS])(struct generator *g) = {
    [PACK] = try_pack,
    [UNPACK] = try_unpack,
    [WRITE_WORD] = try_write_word,
    [WRITE_MESSAGE] = try_write_message,
    [READ_WORD] = try_read_word,
    [READ_MESSAGE] = try_read_message,
    [REPAIR] = try_repair,
    [U4B_WRITE] = try_u4b_write,
    [U4B_READ] = try_u4b_read,
};

static void try_all(struct generator *g)
{
    for (current = 0; current < EXPORTS; current++)
        tries[current](g);
}

int main(int argc, char **argv)
{
    unsigned long rounds = argc > 1 ? strtoul(argv[1], NULL, 10) : 0;
    struct generator g = {argc > 2 ? strtoull(argv[2], NULL, 10) : 1};

    for (round_number = 1; round_number <= rounds; round_number++)
        try_all(&g);
    return report_answers() ? 0 : 1;
}

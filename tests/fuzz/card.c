/* The fuzzer's harness: its bytes become one call of an export, and the answer and every lent buffer are compared with
 * those of the independent implementation. */
#include <inttypes.h>
#include <stdio.h>
#include <stdlib.h>

#include "card.h"
#include "exports.h"
#include "guarded.h"
#include "input.h"
#include "reference.h"
#include "wsprcard.h"

static enum export current;

static void equal(const char *what, uint64_t card, uint64_t reference)
{
    if (card == reference)
        return;
    fprintf(stderr, "fuzz: %s: the %s is %" PRIu64 ", the reference says %" PRIu64 "\n", export_name(current), what,
            card, reference);
    abort();
}

static void equal_buffers(void)
{
    if (guards_agree())
        return;
    fprintf(stderr, "fuzz: %s: a byte in a buffer or beside it isn't what the reference says\n", export_name(current));
    abort();
}

/* What every answer begins with, and the buffers after every call. */
static void equal_answers(uint32_t refusal, uint32_t place, uint32_t own_refusal, uint32_t own_place)
{
    equal("refusal", refusal, own_refusal);
    equal("place", place, own_place);
    equal_buffers();
    count_answer(current, refusal);
}

static void equal_words(wspr_word card, wspr_word reference)
{
    equal_answers(card.refusal, card.place, reference.refusal, reference.place);
    equal("word", card.word, reference.word);
}

static void equal_messages(wspr_message card, wspr_message reference)
{
    equal_answers(card.refusal, card.place, reference.refusal, reference.place);
    equal("power", card.power, reference.power);
}

static struct guarded lend(struct input *in, enum guard guard, const struct content *c)
{
    uint8_t how = take(in);

    return lend_guarded(guard, c->bytes, c->len, how & 1, how & 2);
}

/* A buffer to be written. */
static struct guarded lend_to_write(struct input *in, enum guard guard, size_t exact)
{
    struct content c;

    take_buffer(in, &c, exact);
    return lend(in, guard, &c);
}

static void try_pack(struct input *in)
{
    struct message m;
    struct guarded c, l;

    take_message(in, &m);
    c = lend(in, CALLSIGN, &m.callsign);
    l = lend(in, LOCATOR, &m.locator);
    equal_words(wspr_pack(c.card, c.len, l.card, l.len, m.power),
                reference_pack(c.reference, c.len, l.reference, l.len, m.power));
}

static void try_unpack(struct input *in)
{
    uint64_t word = take_word(in);
    struct guarded c = lend_to_write(in, CALLSIGN, CALLSIGN_LEN);
    struct guarded l = lend_to_write(in, LOCATOR, LOCATOR_LEN);

    equal_messages(wspr_unpack(word, c.card, c.len, l.card, l.len),
                   reference_unpack(word, c.reference, c.len, l.reference, l.len));
}

static void try_write_word(struct input *in)
{
    uint64_t word = take_word(in);
    struct guarded f = lend_to_write(in, FRAME, FRAME_LEN);
    wspr_written card = wspr_write_word(word, f.card, f.len);
    wspr_written reference = reference_write_word(word, f.reference, f.len);

    equal_answers(card.refusal, card.place, reference.refusal, reference.place);
}

static void try_write_message(struct input *in)
{
    struct message m;
    struct guarded c, l, f;
    wspr_written card, reference;

    take_message(in, &m);
    c = lend(in, CALLSIGN, &m.callsign);
    l = lend(in, LOCATOR, &m.locator);
    f = lend_to_write(in, FRAME, FRAME_LEN);
    card = wspr_write_message(c.card, c.len, l.card, l.len, m.power, f.card, f.len);
    reference = reference_write_message(c.reference, c.len, l.reference, l.len, m.power, f.reference, f.len);
    equal_answers(card.refusal, card.place, reference.refusal, reference.place);
}

static void try_read_word(struct input *in)
{
    struct content symbols;
    struct guarded f;

    take_frame(in, &symbols);
    f = lend(in, FRAME, &symbols);
    equal_words(wspr_read_word(f.card, f.len), reference_read_word(f.reference, f.len));
}

static void try_read_message(struct input *in)
{
    struct content symbols;
    struct guarded f, c, l;

    take_frame(in, &symbols);
    f = lend(in, FRAME, &symbols);
    c = lend_to_write(in, CALLSIGN, CALLSIGN_LEN);
    l = lend_to_write(in, LOCATOR, LOCATOR_LEN);
    equal_messages(wspr_read_message(f.card, f.len, c.card, c.len, l.card, l.len),
                   reference_read_message(f.reference, f.len, c.reference, c.len, l.reference, l.len));
}

static void try_repair(struct input *in)
{
    struct content symbols;
    struct guarded f;
    uint32_t limit = take_limit(in), budget;
    wspr_repaired card, reference;

    take_frame(in, &symbols);
    budget = take_budget(in, &symbols, limit);
    f = lend(in, FRAME, &symbols);
    card = wspr_repair(f.card, f.len, limit, budget);
    reference = reference_repair(f.reference, f.len, limit, budget);
    equal_answers(card.refusal, card.place, reference.refusal, reference.place);
    equal("word", card.word, reference.word);
    equal("disagreements", card.disagreements, reference.disagreements);
    equal("live count", card.live, reference.live);
    equal("count of wrong sync bits", card.sync_wrong, reference.sync_wrong);
    equal("margin", card.margin, reference.margin);
}

static void try_u4b_write(struct input *in)
{
    struct report r;
    struct guarded c, l;

    take_report(in, &r);
    c = lend_to_write(in, CALLSIGN, CALLSIGN_LEN);
    l = lend_to_write(in, LOCATOR, LOCATOR_LEN);
    equal_messages(u4b_write(r.first, r.third, r.grid5, r.grid6, r.altitude, r.temperature, r.voltage, r.speed, r.gps,
                             c.card, c.len, l.card, l.len),
                   reference_u4b_write(r.first, r.third, r.grid5, r.grid6, r.altitude, r.temperature, r.voltage,
                                       r.speed, r.gps, c.reference, c.len, l.reference, l.len));
}

static void try_u4b_read(struct input *in)
{
    struct message m;
    struct guarded c, l;
    u4b_reading card, reference;

    take_telemetry_message(in, &m);
    c = lend(in, CALLSIGN, &m.callsign);
    l = lend(in, LOCATOR, &m.locator);
    card = u4b_read(c.card, c.len, l.card, l.len, m.power);
    reference = reference_u4b_read(c.reference, c.len, l.reference, l.len, m.power);
    equal_answers(card.refusal, card.place, reference.refusal, reference.place);
    equal("channel's first character", card.first, reference.first);
    equal("channel's third character", card.third, reference.third);
    equal("sub-square's first letter", card.grid5, reference.grid5);
    equal("sub-square's second letter", card.grid6, reference.grid6);
    equal("altitude", card.altitude, reference.altitude);
    equal("temperature", (uint32_t)card.temperature, (uint32_t)reference.temperature);
    equal("voltage", card.voltage, reference.voltage);
    equal("speed", card.speed, reference.speed);
    equal("GPS", card.gps, reference.gps);
}

static void (*const tries[EXPORTS])(struct input *in) = {
    [PACK] = try_pack,
    [UNPACK] = try_unpack,
    [WRITE_WORD] = try_write_word,
    [WRITE_MESSAGE] = try_write_message,
    [READ_WORD] = try_read_word,
    [READ_MESSAGE] = try_read_message,
    [REPAIR] = try_repair,
    [U4B_WRITE] = try_u4b_write,
    [U4B_READ] = try_u4b_read,
};

int LLVMFuzzerTestOneInput(const uint8_t *bytes, size_t count)
{
    struct input in = input_of(bytes, count);

    current = take(&in) % EXPORTS;
    tries[current](&in);
    return 0;
}

/* The input of hostile.c: right, nearly right and wrong, from a seeded generator; and how it is to be refused. */
#include <string.h>

#include "hostile_input.h"
#include "wsprcard.h"

/* Both sides of every range's ends, of the types' ends, and right numbers with a bit too many. */
static const uint32_t edges[] = {
    0, 1, 2, 11, 12, 13, 14, 60, 61, 64, 80, 81, 82, 130, 131, 256, 293, 838, 839, 840, 2999, 3000, 4999, 5000, 16000,
    21359, 21360, 65535, 65536, 65537, 37 + 65536, 131072, 37 + (1u << 24), INT32_MAX, 1u << 31, UINT32_MAX - 1,
    UINT32_MAX,
};

static const int32_t temperature_edges[] = {
    INT32_MIN, INT32_MIN + 1, -65536 - 500, -501, -500, -499, -491, -490, -11, -10, -9, -5, -1, 0, 9, 10, 389, 390, 399,
    400, 65536, INT32_MAX,
};

static size_t draw_length(struct generator *g, size_t exact)
{
    size_t any = draw_below(g, LONGEST + 1);
    const size_t lengths[] = {0, 1, exact - 1, exact + 1, exact + 256, LONGEST, any};

    return draw_once_in(g, 10) ? lengths[draw_below(g, COUNT(lengths))] : exact;
}

void draw_buffer(struct generator *g, struct content *c, size_t exact)
{
    c->len = draw_length(g, exact);
    draw_bytes(g, c->bytes, c->len);
}

static uint8_t draw_character(struct generator *g, size_t place)
{
    return (uint8_t)characters[place][draw_below(g, strlen(characters[place]))];
}

/* Legal characters from this place on; past the field's end those of any place. */
static void draw_field(struct generator *g, struct content *c, size_t exact, size_t first_place)
{
    c->len = draw_length(g, exact);
    for (size_t i = 0; i < c->len; i++)
        c->bytes[i] = draw_character(g, (first_place + i) % COUNT(characters));
}

static void spoil_byte(struct generator *g, struct content *c)
{
    uint8_t byte = (uint8_t)draw(g);

    if (c->len > 0)
        c->bytes[draw_below(g, c->len)] = byte;
}

static uint32_t draw_edge(struct generator *g)
{
    return draw_once_in(g, 4) ? (uint32_t)draw(g) : edges[draw_below(g, COUNT(edges))];
}

static uint32_t draw_power(struct generator *g)
{
    return draw_once_in(g, 8) ? draw_edge(g) : powers[draw_below(g, COUNT(powers))];
}

/* One fault or two, or none where a byte happens to be right again. */
static void spoil_message(struct generator *g, struct message_input *m)
{
    spoil_byte(g, draw_once_in(g, 2) ? &m->callsign : &m->locator);
    if (draw_once_in(g, 2))
        spoil_byte(g, draw_once_in(g, 2) ? &m->callsign : &m->locator);
}

/* Past R no letter is legal at places 6 and 7. */
static void spoil_locator(struct generator *g, struct content *locator)
{
    uint8_t letter = (uint8_t)('S' + draw_below(g, 8));

    locator->bytes[draw_below(g, 2)] = letter;
}

static void make_small(struct generator *g, struct content *c, int all)
{
    for (size_t i = 0; i < c->len; i++)
        if (all || draw_once_in(g, 2))
            c->bytes[i] = small_of(c->bytes[i]);
}

/* Half of the messages stay as they are, and of the others some have small letters only. */
static void draw_case(struct generator *g, struct message_input *m)
{
    int all = draw_once_in(g, 4);

    if (draw_once_in(g, 2))
        return;
    make_small(g, &m->callsign, all);
    make_small(g, &m->locator, all);
}

void draw_message(struct generator *g, struct message_input *m)
{
    draw_field(g, &m->callsign, CALLSIGN_LEN, 0);
    draw_field(g, &m->locator, LOCATOR_LEN, CALLSIGN_LEN);
    m->power = draw_power(g);
    if (draw_once_in(g, 4))
        spoil_message(g, m);
    if (draw_once_in(g, 16))
        spoil_locator(g, &m->locator);
    if (draw_once_in(g, 16))
        draw_bytes(g, m->callsign.bytes, m->callsign.len);
    if (draw_once_in(g, 16))
        draw_bytes(g, m->locator.bytes, m->locator.len);
    draw_case(g, m);
}

/* A channel's first character, letters for spaces, and often a number A or B near its end. */
static void make_telemetry(struct generator *g, struct message_input *m)
{
    m->callsign.bytes[0] = (uint8_t) "01Q"[draw_below(g, 3)];
    for (size_t place = 3; place < CALLSIGN_LEN; place++)
        m->callsign.bytes[place] = (uint8_t)('A' + draw_below(g, 26));
    if (draw_once_in(g, 4))
        m->callsign.bytes[1] = 'Z';
    if (draw_once_in(g, 4)) {
        m->locator.bytes[0] = 'R';
        m->locator.bytes[1] = (uint8_t)('L' + draw_below(g, 7));
    }
}

void draw_telemetry_message(struct generator *g, struct message_input *m)
{
    draw_message(g, m);
    if (!draw_once_in(g, 4))
        make_telemetry(g, m);
    if (draw_once_in(g, 8))
        spoil_message(g, m);
    if (draw_once_in(g, 8))
        m->callsign.bytes[3 + draw_below(g, 3)] = ' ';
    draw_case(g, m);
}

/* A message's word, or the parts of one at and past their ends. */
static uint64_t draw_word_of_parts(struct generator *g)
{
    uint64_t callsign = draw_once_in(g, 6) ? 262177558 + draw_below(g, 4) : draw_below(g, 262177560);
    uint64_t locator = draw_once_in(g, 6) ? 32398 + draw_below(g, 4) : draw_below(g, 32400);
    uint64_t low = draw_once_in(g, 6) ? draw_below(g, 128) : 64 + powers[draw_below(g, COUNT(powers))];

    return callsign << 22 | locator << 7 | low;
}

uint64_t draw_word(struct generator *g)
{
    const uint64_t ends[] = {0, 1, WORDS - 1, WORDS, WORDS + 1, UINT64_MAX, UINT64_C(1) << 63, UINT32_MAX};
    uint64_t word = draw_word_of_parts(g);

    switch (draw_below(g, 16)) {
    case 0:
        return draw(g);
    case 1:
        return ends[draw_below(g, COUNT(ends))];
    case 2:
        return word | UINT64_C(1) << draw_below(g, 64);
    case 3:
        return draw_below(g, WORDS);
    default:
        return word;
    }
}

/* Turns over one bit of so many different symbols: 1 is the sync bit, 2 the data bit. */
static void turn_over(struct generator *g, uint8_t *frame, uint8_t bit, uint32_t count)
{
    uint8_t turned[FRAME_LEN] = {0};

    while (count > 0) {
        size_t place = draw_below(g, FRAME_LEN);

        if (!turned[place]) {
            turned[place] = 1;
            frame[place] ^= bit;
            count--;
        }
    }
}

/* Symbols of no known word: random ones, one and the same, or bytes that are mostly no symbols. */
static void draw_noise(struct generator *g, uint8_t *frame)
{
    uint8_t kept = (uint8_t)draw(g), added = (uint8_t)draw_below(g, 4), mask = draw_once_in(g, 4) ? 0xff : 3;

    for (size_t i = 0; i < FRAME_LEN; i++)
        frame[i] = (uint8_t)((draw(g) & (kept & 1 ? 0xff : 0)) + added) & mask;
}

/* Takes another word for the one that was sent, with a frame as near to this word's as there is: it differs in 28 data
 * bits. So the nearest word is one that wasn't sent, and most of what differs was turned over. */
static void take_for_another(struct generator *g, struct frame_input *f)
{
    uint8_t own[FRAME_LEN];

    f->word ^= UINT64_C(0x546c3) << draw_below(g, 32);
    wspr_write_word(f->word, own, FRAME_LEN);
    f->flips = 0;
    for (size_t i = 0; i < FRAME_LEN; i++)
        f->flips += (own[i] ^ f->symbols.bytes[i]) >> 1;
}

/* The frame of a word, whole or with more or fewer of its bits turned over. */
static void draw_damaged(struct generator *g, struct frame_input *f)
{
    uint32_t most = draw_once_in(g, 4) ? FRAME_LEN : draw_once_in(g, 2) ? 27 : 5;

    f->word = draw_word(g) % WORDS;
    f->flips = draw_once_in(g, 2) ? 0 : 1 + (uint32_t)draw_below(g, most);
    f->sync_wrong = draw_once_in(g, 3) ? 1 + (uint32_t)draw_below(g, draw_once_in(g, 4) ? FRAME_LEN : 3) : 0;
    wspr_write_word(f->word, f->symbols.bytes, FRAME_LEN);
    if (f->flips == 1 && draw_once_in(g, 8))
        f->symbols.bytes[WORST_PLACE] ^= 2;
    else
        turn_over(g, f->symbols.bytes, 2, f->flips);
    turn_over(g, f->symbols.bytes, 1, f->sync_wrong);
    if (draw_once_in(g, 8))
        take_for_another(g, f);
}

/* A symbol above 3. */
static void spoil_symbol(struct generator *g, uint8_t *frame)
{
    uint8_t symbol = (uint8_t)(4 + draw_below(g, 252));

    frame[draw_below(g, FRAME_LEN)] = symbol;
}

void draw_frame(struct generator *g, struct frame_input *f)
{
    memset(f, 0, sizeof *f);
    f->of_word = !draw_once_in(g, 6);
    if (f->of_word)
        draw_damaged(g, f);
    else
        draw_noise(g, f->symbols.bytes);
    f->symbols.len = draw_length(g, FRAME_LEN);
    if (f->symbols.len > FRAME_LEN)
        draw_bytes(g, f->symbols.bytes + FRAME_LEN, f->symbols.len - FRAME_LEN);
    f->spoiled = draw_once_in(g, 10);
    if (f->spoiled)
        spoil_symbol(g, f->symbols.bytes);
}

/* Limits above 4 are few: they cost the most time and mostly end at the budget. */
uint32_t draw_limit(struct generator *g)
{
    switch (draw_below(g, 16)) {
    case 0:
        return draw_edge(g);
    case 1:
        return 5 + (uint32_t)draw_below(g, 9);
    default:
        return (uint32_t)draw_below(g, 5);
    }
}

/* Often next to 81, 131, 569 and 17,851, the live counts of clean frames, and 135, that of the worst flipped bit. */
uint32_t draw_budget(struct generator *g)
{
    static const uint32_t counts[] = {78, 128, 128, 566, 17848};

    switch (draw_below(g, 6)) {
    case 0:
    case 1:
        return draw_edge(g);
    case 2:
        return counts[draw_below(g, COUNT(counts))] + (uint32_t)draw_below(g, 8);
    default:
        return 81 + (uint32_t)draw_below(g, 16000);
    }
}

static void draw_right_report(struct generator *g, struct report_input *r)
{
    r->first = (uint8_t) "01Q"[draw_below(g, 3)];
    r->third = (uint8_t)('0' + draw_below(g, 10));
    r->grid5 = (uint8_t)('A' + draw_below(g, 24));
    r->grid6 = (uint8_t)('A' + draw_below(g, 24));
    r->altitude = (uint32_t)draw_below(g, 21360);
    r->temperature = (int32_t)draw_below(g, 900) - 500;
    r->voltage = 3000 + (uint32_t)draw_below(g, 2000);
    r->speed = (uint32_t)draw_below(g, 840);
    r->gps = (uint32_t)draw_below(g, 2);
}

static void spoil_report(struct generator *g, struct report_input *r)
{
    uint32_t *const numbers[] = {&r->altitude, &r->voltage, &r->speed, &r->gps};
    uint8_t *const bytes[] = {&r->first, &r->third, &r->grid5, &r->grid6};
    uint32_t edge = draw_edge(g);
    uint8_t *byte = bytes[draw_below(g, COUNT(bytes))];

    switch (draw_below(g, 3)) {
    case 0: /* a small letter counts as its capital in messages only */
        *byte = draw_once_in(g, 2) ? small_of(*byte) : (uint8_t)edge;
        break;
    case 1:
        r->temperature = temperature_edges[draw_below(g, COUNT(temperature_edges))];
        break;
    default:
        *numbers[draw_below(g, COUNT(numbers))] = edge;
    }
}

void draw_report(struct generator *g, struct report_input *r)
{
    draw_right_report(g, r);
    if (draw_once_in(g, 2))
        spoil_report(g, r);
    if (draw_once_in(g, 4))
        spoil_report(g, r);
}

int is_power(uint32_t power)
{
    for (size_t i = 0; i < COUNT(powers); i++)
        if (powers[i] == power)
            return 1;
    return 0;
}

static int is_character(uint8_t byte, size_t place)
{
    return memchr(characters[place], capital_of(byte), strlen(characters[place])) != NULL;
}

static void make_capital(struct content *c)
{
    for (size_t i = 0; i < c->len; i++)
        c->bytes[i] = capital_of(c->bytes[i]);
}

void make_capital_form(struct message_input *m)
{
    make_capital(&m->callsign);
    make_capital(&m->locator);
}

struct refusal message_refusal(const struct message_input *m)
{
    if (m->callsign.len != CALLSIGN_LEN || m->locator.len != LOCATOR_LEN)
        return (struct refusal){1, 0};
    for (uint32_t place = 0; place < COUNT(characters); place++) {
        uint8_t byte = place < CALLSIGN_LEN ? m->callsign.bytes[place] : m->locator.bytes[place - CALLSIGN_LEN];

        if (!is_character(byte, place))
            return (struct refusal){2, place};
    }
    return (struct refusal){is_power(m->power) ? 0 : 3, 0};
}

struct refusal word_refusal(uint64_t word)
{
    if (word >> 22 >= 262177560)
        return (struct refusal){4, 0};
    if ((word >> 7) % 32768 >= 32400)
        return (struct refusal){5, 0};
    return (struct refusal){word % 128 >= 64 && is_power(word % 128 - 64) ? 0 : 6, 0};
}

struct refusal report_refusal(const struct report_input *r)
{
    const int in_range[] = {
        r->first == '0' || r->first == '1' || r->first == 'Q',
        r->third >= '0' && r->third <= '9',
        r->grid5 >= 'A' && r->grid5 <= 'X',
        r->grid6 >= 'A' && r->grid6 <= 'X',
        r->altitude <= 21359,
        r->temperature >= -500 && r->temperature <= 399,
        r->voltage >= 3000 && r->voltage <= 4999,
        r->speed <= 839,
        r->gps <= 1,
    };

    for (uint32_t place = 0; place < COUNT(in_range); place++)
        if (!in_range[place])
            return (struct refusal){14, place};
    return (struct refusal){0, 0};
}

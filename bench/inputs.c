/* Draws the inputs of the benchmark. Words and frames are made by the card itself. */
#include "inputs.h"

/* splitmix64 */
static uint64_t random_number(void)
{
    static uint64_t state = 1;
    uint64_t mixed = state += UINT64_C(0x9e3779b97f4a7c15);

    mixed = (mixed ^ mixed >> 30) * UINT64_C(0xbf58476d1ce4e5b9);
    mixed = (mixed ^ mixed >> 27) * UINT64_C(0x94d049bb133111eb);
    return mixed ^ mixed >> 31;
}

static uint32_t below(uint32_t end)
{
    return (uint32_t)(random_number() % end);
}

static uint8_t one_of(const char *characters, uint32_t count)
{
    return (uint8_t)characters[below(count)];
}

void draw_message(inputs *in, size_t i)
{
    static const char all[] = "0123456789ABCDEFGHIJKLMNOPQRSTUVWXYZ ";
    static const uint8_t start[PLACES] = {0, 0, 0, 10, 10, 10, 10, 10, 0, 0};
    static const uint8_t count[PLACES] = {37, 36, 10, 27, 27, 27, 18, 18, 10, 10};
    message *m = &in->messages[i];

    for (uint32_t place = 0; place < PLACES; place++) {
        uint8_t *byte = place < CALLSIGN ? &m->callsign[place] : &m->locator[place - CALLSIGN];

        *byte = one_of(all + start[place], count[place]);
    }
    m->power = powers[below(POWERS)];
}

void draw_word(inputs *in, size_t i)
{
    in->words[i] = random_number() >> (64 - WORD_BITS);
}

void draw_word_of_message(inputs *in, size_t i)
{
    message *m = &in->messages[i];

    draw_message(in, i);
    in->words[i] = wspr_pack(m->callsign, CALLSIGN, m->locator, LOCATOR, m->power).word;
}

void draw_frame_of_word(inputs *in, size_t i)
{
    draw_word(in, i);
    wspr_write_word(in->words[i], in->frames[i], SYMBOLS);
}

void draw_frame_of_message(inputs *in, size_t i)
{
    draw_word_of_message(in, i);
    wspr_write_word(in->words[i], in->frames[i], SYMBOLS);
}

/* The one data bit that leaves the most prefixes live at limit 2 where it is flipped. */
void draw_worst_flip(inputs *in, size_t i)
{
    draw_frame_of_word(in, i);
    in->frames[i][places[96]] ^= 2;
}

/* The frame of a word, with the data bits of so many different symbols flipped. */
static void draw_flips(inputs *in, size_t i, size_t count)
{
    uint8_t flipped[SYMBOLS] = {0};

    draw_frame_of_word(in, i);
    while (count > 0) {
        uint32_t place = below(SYMBOLS);

        if (flipped[place])
            continue;
        flipped[place] = 1;
        in->frames[i][place] ^= 2;
        count--;
    }
}

void draw_two_flips(inputs *in, size_t i)
{
    draw_flips(in, i, 2);
}

void draw_four_flips(inputs *in, size_t i)
{
    draw_flips(in, i, 4);
}

static void draw_symbols(uint8_t *frame)
{
    for (size_t i = 0; i < SYMBOLS; i++)
        frame[i] = (uint8_t)below(4);
}

void draw_noise(inputs *in, size_t i)
{
    do
        draw_symbols(in->frames[i]);
    while (tuned_repair(in->frames[i], SYMBOLS, in->limit, in->budget).refusal == 16);
}

void draw_report(inputs *in, size_t i)
{
    in->reports[i] = (u4b_reading){
        .first = one_of("01Q", 3),
        .third = one_of("0123456789", 10),
        .grid5 = (uint8_t)('A' + below(24)),
        .grid6 = (uint8_t)('A' + below(24)),
        .altitude = below(21360),
        .temperature = (int32_t)below(900) - 500,
        .voltage = 3000 + below(2000),
        .speed = below(840),
        .gps = below(2),
    };
}

void draw_message_of_report(inputs *in, size_t i)
{
    u4b_reading *r = &in->reports[i];
    message *m = &in->messages[i];

    draw_report(in, i);
    m->power = u4b_write(r->first, r->third, r->grid5, r->grid6, r->altitude, r->temperature, r->voltage, r->speed,
                         r->gps, m->callsign, CALLSIGN, m->locator, LOCATOR).power;
}

static void make_small(uint8_t *bytes, size_t count)
{
    for (size_t i = 0; i < count; i++)
        if (bytes[i] >= 'A' && bytes[i] <= 'Z')
            bytes[i] = (uint8_t)(bytes[i] - 'A' + 'a');
}

/* Characters beside the ends of the sets, too; and one message in four is in small letters. */
void spoil_message(inputs *in, size_t i)
{
    message *m = &in->messages[i];
    uint32_t place = below(PLACES + 1);
    uint8_t byte = one_of(" /09:@AQRSXZ[`aqrsxz{\x7f\xff", 23);

    if (i % 4 == 0) {
        make_small(m->callsign, CALLSIGN);
        make_small(m->locator, LOCATOR);
    }
    if (place < CALLSIGN)
        m->callsign[place] = byte;
    else if (place < PLACES)
        m->locator[place - CALLSIGN] = byte;
    else
        m->power = below(64);
}

/* Also to the ends of telemetry's numbers, which are at ?Z?AAH and at RM31 with the power 33. */
void spoil_message_of_report(inputs *in, size_t i)
{
    message *m = &in->messages[i];

    switch (below(3)) {
    case 0:
        m->callsign[1] = 'Z';
        memset(m->callsign + 3, 'A', 2);
        m->callsign[5] = (uint8_t)('A' + below(26));
        break;
    case 1:
        memcpy(m->locator, "RM31", LOCATOR);
        m->power = powers[below(POWERS)];
        break;
    default:
        spoil_message(in, i);
    }
}

/* To four times the words that there are, or to the ends of a message's numbers in a word. */
void spoil_word(inputs *in, size_t i)
{
    uint64_t *word = &in->words[i];

    switch (below(4)) {
    case 0:
        *word = random_number() >> (64 - WORD_BITS - 2);
        break;
    case 1:
        *word = (uint64_t)(262177550 + below(20)) << 22 | (*word & 0x3fffff);
        break;
    case 2:
        *word = (*word & ~(uint64_t)0x3fff80) | (32390 + below(20)) << 7;
        break;
    default:
        *word ^= below(128);
    }
}

void spoil_frame(inputs *in, size_t i)
{
    uint32_t change = 1u << below(8);

    in->frames[i][below(SYMBOLS)] ^= (uint8_t)change;
}

void spoil_report(inputs *in, size_t i)
{
    u4b_reading *r = &in->reports[i];

    switch (below(9)) {
    case 0: r->first = (uint8_t)below(128); break;
    case 1: r->third = (uint8_t)below(128); break;
    case 2: r->grid5 = (uint8_t)below(128); break;
    case 3: r->grid6 = (uint8_t)below(128); break;
    case 4: r->altitude = 21350 + below(20); break;
    case 5: r->temperature = below(2) ? 390 + (int32_t)below(20) : -510 + (int32_t)below(20); break;
    case 6: r->voltage = below(2) ? 4990 + below(20) : 2990 + below(20); break;
    case 7: r->speed = 830 + below(20); break;
    default: r->gps = below(4); break;
    }
}

void set_common(inputs *in, uint32_t limit, uint32_t budget, uint32_t way)
{
    in->callsign_len = way == 1 ? CALLSIGN - 1 : CALLSIGN;
    in->locator_len = way == 2 ? LOCATOR - 1 : LOCATOR;
    in->frame_len = way == 3 ? SYMBOLS - 1 : SYMBOLS;
    in->limit = way == 4 ? 13 : limit;
    in->budget = way == 5 ? 0 : way == 6 ? 65537 : budget;
}

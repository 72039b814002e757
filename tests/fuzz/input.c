/* The fuzzer's bytes as input of the exports: raw, or built from right words, frames and numbers and then spoiled. */
#include "input.h"

#include <string.h>

#include "reference.h"

struct input input_of(const uint8_t *bytes, size_t count)
{
    struct input in = {bytes, count, {count}};

    for (size_t i = 0; i < count; i++)
        in.rest.state = (in.rest.state ^ bytes[i]) * UINT64_C(0x100000001b3);
    return in;
}

uint8_t take(struct input *in)
{
    if (in->left == 0)
        return (uint8_t)draw(&in->rest);
    in->left--;
    return *in->bytes++;
}

uint64_t take_number(struct input *in, size_t bytes)
{
    uint64_t number = 0;

    while (bytes-- > 0)
        number = number << 8 | take(in);
    return number;
}

/* Mostly the exact length; else a small one, one near it, or one with its lowest eight bits. */
static size_t take_length(struct input *in, size_t exact)
{
    uint8_t byte = take(in), kind = byte & 31;

    if (byte < 224)
        return exact;
    if (kind == 31)
        return exact + 256;
    return kind < 8 || exact + kind < 18 ? kind : exact + kind - 18;
}

/* The number as it is; once in a while another one, or it with a bit too many. */
static uint32_t take_instead(struct input *in, uint32_t number)
{
    uint8_t kind = take(in);

    if (kind < 240)
        return number;
    return kind < 248 ? (uint32_t)take_number(in, 4) : number | UINT32_C(1) << take(in) % 32;
}

/* A number of its range, or near its end, or any. */
static uint32_t take_in_range(struct input *in, uint32_t first, uint32_t count)
{
    uint8_t kind = take(in);
    uint32_t number = (uint32_t)take_number(in, 2) % count;

    return take_instead(in, first + (kind < 240 ? number : count + (uint32_t)kind - 248));
}

static uint32_t take_power(struct input *in)
{
    uint8_t kind = take(in);

    return take_instead(in, kind < 224 ? powers[kind % COUNT(powers)] : kind % 64u);
}

/* A word's three parts, each of its range or of as many bits as it has. */
static uint64_t take_word_of_parts(struct input *in, int any)
{
    uint64_t callsign = take_number(in, 4) % (any ? UINT64_C(1) << 28 : 262177560);
    uint64_t locator = take_number(in, 2) % (any ? 32768 : 32400);
    uint64_t low = any ? take(in) % 128u : 64 + powers[take(in) % COUNT(powers)];

    return callsign << 22 | locator << 7 | low;
}

uint64_t take_word(struct input *in)
{
    uint8_t kind = take(in);

    switch (kind % 8) {
    case 0:
        return take_number(in, 8);
    case 1:
        return take_number(in, 8) % WORDS;
    case 2:
        return take_word_of_parts(in, 1);
    case 3: /* at the end of the callsigns' numbers and of the locators' */
        return (UINT64_C(262177559) + (kind >> 7)) << 22 | (32399 + (kind >> 6 & 1)) << 7 | take(in) % 128u;
    case 4: /* a bit too many, if it isn't one of the 50 */
        return take_word_of_parts(in, 0) | UINT64_C(1) << (kind >> 3) << 32;
    default:
        return take_word_of_parts(in, 0);
    }
}

void take_buffer(struct input *in, struct content *c, size_t exact)
{
    c->len = take_length(in, exact);
    memset(c->bytes, take(in), c->len);
}

/* Any bytes, or legal characters from this place on; past the field's end those of any place. */
static void take_field(struct input *in, struct content *c, size_t exact, size_t first_place, int any)
{
    c->len = take_length(in, exact);
    for (size_t i = 0; i < c->len; i++) {
        const char *legal = characters[(first_place + i) % COUNT(characters)];
        uint8_t byte = take(in);

        c->bytes[i] = any ? byte : (uint8_t)legal[byte % strlen(legal)];
    }
}

static void spoil_message(struct input *in, struct message *m, int faults)
{
    while (faults-- > 0) {
        size_t place = take(in) % COUNT(characters);
        uint8_t byte = take(in);

        if (place < CALLSIGN_LEN)
            m->callsign.bytes[place] = byte;
        else
            m->locator.bytes[place - CALLSIGN_LEN] = byte;
    }
}

/* The letters at these places, a bit each, made small. */
static void make_small(struct content *c, uint64_t places)
{
    for (size_t i = 0; i < c->len; i++, places >>= 1)
        if (places & 1)
            c->bytes[i] = small_of(c->bytes[i]);
}

/* Letters as they are, all of them small, or those at some places. */
static void take_case(struct input *in, struct message *m)
{
    uint8_t kind = take(in);
    uint64_t places = kind < 128 ? 0 : kind < 192 ? UINT64_MAX : take_number(in, 2);

    make_small(&m->callsign, places);
    make_small(&m->locator, places >> CALLSIGN_LEN);
}

/* Once in eight times any bytes, once some of them, and once a letter past R at place 6 or 7. */
void take_message(struct input *in, struct message *m)
{
    uint8_t shape = take(in);

    take_field(in, &m->callsign, CALLSIGN_LEN, 0, shape % 8 == 0);
    take_field(in, &m->locator, LOCATOR_LEN, CALLSIGN_LEN, shape % 8 == 0);
    m->power = take_power(in);
    spoil_message(in, m, shape % 8 == 1 ? 1 + (shape >> 6) : 0);
    if (shape % 8 == 2)
        m->locator.bytes[shape >> 7] = (uint8_t)('S' + take(in) % 8);
    take_case(in, m);
}

/* Numbers A and B anywhere in a message's room; B's last digit is the power's index. */
static void take_numbers(struct input *in, struct message *m)
{
    uint32_t a = take(in) & 1 ? 615160 + take(in) % 16u : (uint32_t)take_number(in, 3) % 632736;
    uint32_t b = take(in) & 1 ? 604792 + take(in) % 16u : (uint32_t)take_number(in, 3) % 615600;
    uint8_t *callsign = m->callsign.bytes, *locator = m->locator.bytes;

    callsign[0] = (uint8_t) "01Q"[take(in) % 3];
    callsign[1] = (uint8_t)characters[1][a / 17576];
    callsign[3] = (uint8_t)('A' + a / 676 % 26);
    callsign[4] = (uint8_t)('A' + a / 26 % 26);
    callsign[5] = (uint8_t)('A' + a % 26);
    locator[0] = (uint8_t)('A' + b / 34200);
    locator[1] = (uint8_t)('A' + b / 1900 % 18);
    locator[2] = (uint8_t)('0' + b / 190 % 10);
    locator[3] = (uint8_t)('0' + b / 19 % 10);
    m->power = powers[b % 19];
}

void take_telemetry_message(struct input *in, struct message *m)
{
    uint8_t shape = take(in);

    take_message(in, m);
    if (shape & 1)
        take_numbers(in, m);
    spoil_message(in, m, (shape & 6) == 6 ? 1 + (shape >> 7) : 0);
    take_case(in, m);
}

/* Mostly data bits are turned over; also sync bits, both, and symbols above 3 put in. */
static void damage(struct input *in, uint8_t *frame, int count)
{
    while (count-- > 0) {
        uint8_t place = take(in) % FRAME_LEN, kind = take(in);

        if (kind >= 240)
            frame[place] = kind;
        else
            frame[place] ^= kind < 192 ? 2 : kind < 216 ? 1 : 3;
    }
}

/* All sync bits turned over, which so many single faults would hardly reach. */
static void turn_sync_over(uint8_t *frame)
{
    for (size_t i = 0; i < FRAME_LEN; i++)
        frame[i] ^= 1;
}

/* Any bytes or any symbols. */
static void take_symbols(struct input *in, struct content *c, uint8_t mask)
{
    for (size_t i = 0; i < c->len; i++)
        c->bytes[i] = take(in) & mask;
}

/* A word's frame, clean or damaged; or symbols of no word. What is past the frame's end is one byte all over. */
void take_frame(struct input *in, struct content *c)
{
    uint8_t shape = take(in);

    c->len = take_length(in, FRAME_LEN);
    memset(c->bytes, take(in), sizeof c->bytes);
    if (shape % 4 == 0) {
        take_symbols(in, c, shape & 4 ? 3 : 0xff);
        return;
    }
    reference_write_word(take_word(in) % WORDS, c->bytes, FRAME_LEN);
    if (shape % 4 == 1 && shape & 4)
        turn_sync_over(c->bytes);
    if (shape % 4 > 1)
        damage(in, c->bytes, shape >> 4);
}

uint32_t take_limit(struct input *in)
{
    uint8_t kind = take(in);

    return take_instead(in, kind >= 192 ? kind % 16u : kind % 5u);
}

/* Any budget; or one at the live count, where that is quickly counted. */
uint32_t take_budget(struct input *in, const struct content *frame, uint32_t limit)
{
    uint8_t kind = take(in);
    uint32_t any = (uint32_t)take_number(in, 2);
    int countable = frame->len == FRAME_LEN && limit <= 4;

    for (size_t i = 0; i < FRAME_LEN; i++)
        countable &= frame->bytes[i] <= 3;
    if (kind == 254)
        return 65536 + any % 2;
    if (kind % 2 == 0 && countable)
        return take_instead(in, (uint32_t)reference_live_count(frame->bytes, limit) + any % 3 - 1);
    return take_instead(in, any >> (limit > 4 ? kind >> 5 : 0));
}

void take_report(struct input *in, struct report *r)
{
    r->first = (uint8_t)take_instead(in, (uint8_t) "01Q"[take(in) % 3]);
    r->third = (uint8_t)take_in_range(in, '0', 10);
    r->grid5 = (uint8_t)take_in_range(in, 'A', 24);
    r->grid6 = (uint8_t)take_in_range(in, 'A', 24);
    r->altitude = take_in_range(in, 0, 21360);
    r->temperature = (int32_t)(take_in_range(in, 0, 900) - 500);
    r->voltage = take_in_range(in, 3000, 2000);
    r->speed = take_in_range(in, 0, 840);
    r->gps = take_in_range(in, 0, 2);
}

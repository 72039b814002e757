/* A message and its word by hand: tables for characters and powers, and the numbers by Horner's rule and divisions by
 * constants. */
#include "message.h"

#include "by_hand.h"

#define CALLSIGNS 262177560
#define LOCATORS 32400
#define LARGEST_POWER 60

/* One more than a character's value, digits first, then letters, small ones as their capitals, then the space; 0 for
 * every other byte. */
static const uint8_t values[256] = {
    ['0'] = 1,  ['1'] = 2,  ['2'] = 3,  ['3'] = 4,  ['4'] = 5,  ['5'] = 6,  ['6'] = 7,  ['7'] = 8,  ['8'] = 9,
    ['9'] = 10, ['A'] = 11, ['B'] = 12, ['C'] = 13, ['D'] = 14, ['E'] = 15, ['F'] = 16, ['G'] = 17, ['H'] = 18,
    ['I'] = 19, ['J'] = 20, ['K'] = 21, ['L'] = 22, ['M'] = 23, ['N'] = 24, ['O'] = 25, ['P'] = 26, ['Q'] = 27,
    ['R'] = 28, ['S'] = 29, ['T'] = 30, ['U'] = 31, ['V'] = 32, ['W'] = 33, ['X'] = 34, ['Y'] = 35, ['Z'] = 36,
    ['a'] = 11, ['b'] = 12, ['c'] = 13, ['d'] = 14, ['e'] = 15, ['f'] = 16, ['g'] = 17, ['h'] = 18, ['i'] = 19,
    ['j'] = 20, ['k'] = 21, ['l'] = 22, ['m'] = 23, ['n'] = 24, ['o'] = 25, ['p'] = 26, ['q'] = 27, ['r'] = 28,
    ['s'] = 29, ['t'] = 30, ['u'] = 31, ['v'] = 32, ['w'] = 33, ['x'] = 34, ['y'] = 35, ['z'] = 36, [' '] = 37,
};

static const char characters[] = "0123456789ABCDEFGHIJKLMNOPQRSTUVWXYZ ";
static const char letters[] = "ABCDEFGHIJKLMNOPQRSTUVWXYZ ";

/* Each place takes the values from its lowest on, here one more like those above, as many as its size. */
static const uint8_t lowest[PLACES] = {1, 1, 1, 11, 11, 11, 11, 11, 1, 1};
static const uint8_t sizes[PLACES] = {37, 36, 10, 27, 27, 27, 18, 18, 10, 10};

const uint8_t powers[POWERS] = {0, 3, 7, 10, 13, 17, 20, 23, 27, 30, 33, 37, 40, 43, 47, 50, 53, 57, 60};

/* One more than a power's index; 0 for every other number. */
static const uint8_t indexes[LARGEST_POWER + 1] = {
    [0] = 1,   [3] = 2,   [7] = 3,   [10] = 4,  [13] = 5,  [17] = 6,  [20] = 7,  [23] = 8,  [27] = 9,  [30] = 10,
    [33] = 11, [37] = 12, [40] = 13, [43] = 14, [47] = 15, [50] = 16, [53] = 17, [57] = 18, [60] = 19,
};

static uint32_t is_power(uint32_t power)
{
    return power <= LARGEST_POWER && indexes[power];
}

/* A value below the place's lowest wraps around to a digit past every size. Returns the first place whose character is
 * outside its set, or the number of places. */
static uint32_t read_digits(uint32_t *digits, uint32_t start, const uint8_t *bytes, uint32_t count)
{
    for (uint32_t i = 0; i < count; i++) {
        digits[start + i] = (uint32_t)values[bytes[i]] - lowest[start + i];
        if (digits[start + i] >= sizes[start + i])
            return start + i;
    }
    return PLACES;
}

static void refuse(parts *message, uint32_t refusal, uint32_t place)
{
    message->refusal = refusal;
    message->place = place;
}

void take_apart(parts *message, const uint8_t *callsign, size_t callsign_len, const uint8_t *locator,
                size_t locator_len, uint32_t power)
{
    uint32_t bad;

    if (callsign_len != CALLSIGN || locator_len != LOCATOR) {
        refuse(message, 1, 0);
        return;
    }
    bad = read_digits(message->digits, 0, callsign, CALLSIGN);
    if (bad == PLACES)
        bad = read_digits(message->digits, CALLSIGN, locator, LOCATOR);
    if (bad < PLACES) {
        refuse(message, 2, bad);
    } else if (!is_power(power)) {
        refuse(message, 3, 0);
    } else {
        refuse(message, 0, 0);
        message->index = indexes[power] - 1u;
    }
}

wspr_word hand_pack(const uint8_t *callsign, size_t callsign_len, const uint8_t *locator, size_t locator_len,
                    uint32_t power)
{
    parts m;
    const uint32_t *d = m.digits;
    uint32_t of_callsign, of_locator;

    take_apart(&m, callsign, callsign_len, locator, locator_len, power);
    if (m.refusal)
        return (wspr_word){.refusal = m.refusal, .place = m.place};
    of_callsign = ((((d[0] * 36 + d[1]) * 10 + d[2]) * 27 + d[3]) * 27 + d[4]) * 27 + d[5];
    of_locator = (179 - 10 * d[6] - d[8]) * 180 + 10 * d[7] + d[9];
    return (wspr_word){.word = (uint64_t)of_callsign << 22 | of_locator << 7 | (power + 64)};
}

static void write_callsign(uint32_t number, uint8_t *callsign)
{
    callsign[5] = (uint8_t)letters[number % 27];
    callsign[4] = (uint8_t)letters[number / 27 % 27];
    callsign[3] = (uint8_t)letters[number / (27 * 27) % 27];
    number /= 27 * 27 * 27;
    callsign[2] = (uint8_t)characters[number % 10];
    callsign[1] = (uint8_t)characters[number / 10 % 36];
    callsign[0] = (uint8_t)characters[number / 360];
}

static void write_locator(uint32_t number, uint8_t *locator)
{
    uint32_t east = 179 - number / 180, north = number % 180;

    locator[0] = (uint8_t)letters[east / 10];
    locator[1] = (uint8_t)letters[north / 10];
    locator[2] = (uint8_t)characters[east % 10];
    locator[3] = (uint8_t)characters[north % 10];
}

static wspr_message refused(uint32_t refusal)
{
    return (wspr_message){.refusal = refusal};
}

wspr_message hand_unpack(uint64_t word, uint8_t *callsign, size_t callsign_len, uint8_t *locator, size_t locator_len)
{
    uint64_t of_callsign = word >> 22;
    uint32_t of_locator = (uint32_t)word >> 7 & 0x7fff;
    uint32_t power = ((uint32_t)word & 0x7f) - 64; /* below 64 it wraps around, and is no power */

    if (callsign_len != CALLSIGN || locator_len != LOCATOR)
        return refused(1);
    if (of_callsign >= CALLSIGNS)
        return refused(4);
    if (of_locator >= LOCATORS)
        return refused(5);
    if (!is_power(power))
        return refused(6);
    write_callsign((uint32_t)of_callsign, callsign);
    write_locator(of_locator, locator);
    return (wspr_message){.power = power};
}

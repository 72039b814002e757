/* Frames by hand: the code by a shift register and parities, and the places and sync bits from tables. */
#include "by_hand.h"
#include "symbols.h"

/* The coded bit of the register under a mask. */
static inline uint32_t coded(uint32_t shifted, uint32_t mask)
{
    return (uint32_t)__builtin_parity(shifted & mask);
}

static inline uint8_t symbol(uint8_t place, uint32_t data)
{
    return (uint8_t)(sync_bits[place] + 2 * data);
}

/* The word's bits leave at the top, highest first, and then zeros. */
static void write_frame(uint64_t word, uint8_t *frame)
{
    uint64_t leaving = word << (64 - WORD_BITS);
    uint32_t shifted = 0;

    for (size_t i = 0; i < SYMBOLS; i += 2) {
        shifted = shifted << 1 | (uint32_t)(leaving >> 63);
        leaving <<= 1;
        frame[places[i]] = symbol(places[i], coded(shifted, FIRST_MASK));
        frame[places[i + 1]] = symbol(places[i + 1], coded(shifted, SECOND_MASK));
    }
}

wspr_written hand_write_word(uint64_t word, uint8_t *frame, size_t frame_len)
{
    if (frame_len != SYMBOLS)
        return (wspr_written){.refusal = 1};
    if (word >> WORD_BITS)
        return (wspr_written){.refusal = 4};
    write_frame(word, frame);
    return (wspr_written){0};
}

wspr_written hand_write_message(const uint8_t *callsign, size_t callsign_len, const uint8_t *locator,
                                size_t locator_len, uint32_t power, uint8_t *frame, size_t frame_len)
{
    wspr_word packed;

    if (frame_len != SYMBOLS)
        return (wspr_written){.refusal = 1};
    packed = hand_pack(callsign, callsign_len, locator, locator_len, power);
    if (packed.refusal)
        return (wspr_written){packed.refusal, packed.place};
    write_frame(packed.word, frame);
    return (wspr_written){0};
}

static uint32_t find_wrong_sync(const uint8_t *frame)
{
    uint32_t place = 0;

    while ((frame[place] & 1) == sync_bits[place])
        place++;
    return place;
}

/* The first place whose sync bit is wrong, or SYMBOLS. The last eight overlap the others. */
static uint32_t first_wrong_sync(const uint8_t *frame)
{
    uint64_t wrong = eight(frame + SYMBOLS - 8) ^ eight(sync_bits + SYMBOLS - 8);

    for (size_t i = 0; i + 8 <= SYMBOLS; i += 8)
        wrong |= eight(frame + i) ^ eight(sync_bits + i);
    return wrong & EACH_BYTE ? find_wrong_sync(frame) : SYMBOLS;
}

/* The zeros after a word's bits: whether a coded bit differs. */
static uint32_t tail_differs(const uint8_t *frame, uint32_t shifted)
{
    uint32_t differs = 0;

    for (size_t i = 2 * WORD_BITS; i < SYMBOLS; i += 2) {
        shifted <<= 1;
        differs |= coded(shifted, FIRST_MASK) ^ frame[places[i]] >> 1;
        differs |= coded(shifted, SECOND_MASK) ^ frame[places[i + 1]] >> 1;
    }
    return differs;
}

/* Both masks take the newest bit, so that the first coded bit of each pair gives the bit that was clocked, and the
 * second one is compared. */
static wspr_word decode(const uint8_t *frame)
{
    uint64_t word = 0;
    uint32_t differs = 0;

    for (size_t i = 0; i < 2 * WORD_BITS; i += 2) {
        word <<= 1;
        word |= coded((uint32_t)word, FIRST_MASK) ^ frame[places[i]] >> 1;
        differs |= coded((uint32_t)word, SECOND_MASK) ^ frame[places[i + 1]] >> 1;
    }
    differs |= tail_differs(frame, (uint32_t)word);
    return differs ? (wspr_word){.refusal = 9} : (wspr_word){.word = word};
}

wspr_word hand_read_word(const uint8_t *frame, size_t frame_len)
{
    uint32_t place;

    if (frame_len != SYMBOLS)
        return (wspr_word){.refusal = 1};
    place = first_above_3(frame);
    if (place < SYMBOLS)
        return (wspr_word){.refusal = 7, .place = place};
    place = first_wrong_sync(frame);
    if (place < SYMBOLS)
        return (wspr_word){.refusal = 8, .place = place};
    return decode(frame);
}

wspr_message hand_read_message(const uint8_t *frame, size_t frame_len, uint8_t *callsign, size_t callsign_len,
                               uint8_t *locator, size_t locator_len)
{
    wspr_word read = hand_read_word(frame, frame_len);

    if (read.refusal)
        return (wspr_message){.refusal = read.refusal, .place = read.place};
    return hand_unpack(read.word, callsign, callsign_len, locator, locator_len);
}

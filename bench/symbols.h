/* What the calls by hand on frames share: the code's numbers, tables of places and sync bits, a test of symbols. */
#ifndef SYMBOLS_H
#define SYMBOLS_H

#include <stdint.h>
#include <string.h>

#define SYMBOLS 162
#define CLOCKED 81
#define WORD_BITS 50

#define FIRST_MASK UINT32_C(0xf2d05351)
#define SECOND_MASK UINT32_C(0xe4613c47)

#define EACH_BYTE UINT64_C(0x0101010101010101)

/* Where the coded bits stand in a frame. */
extern const uint8_t places[SYMBOLS];

/* The sync bit of each place. */
extern const uint8_t sync_bits[SYMBOLS];

/* The first symbol above 3, or SYMBOLS. */
uint32_t first_above_3(const uint8_t *frame);

/* Eight symbols at once, in the machine's own order. */
static inline uint64_t eight(const uint8_t *symbols)
{
    uint64_t bytes;

    memcpy(&bytes, symbols, sizeof bytes);
    return bytes;
}

#endif

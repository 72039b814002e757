/* What is legal in a message, for the programs that draw messages: lengths, words, powers and characters. */
#ifndef LEGAL_H
#define LEGAL_H

#include <stdint.h>

#define COUNT(table) (sizeof(table) / sizeof *(table))

enum { CALLSIGN_LEN = 6, LOCATOR_LEN = 4, FRAME_LEN = 162 };

/* 2^50: no word is so large. */
#define WORDS (UINT64_C(1) << 50)

static const uint32_t powers[] = {0, 3, 7, 10, 13, 17, 20, 23, 27, 30, 33, 37, 40, 43, 47, 50, 53, 57, 60};

/* The characters legal at each place: 0 to 5 are the callsign's, 6 to 9 the locator's. A small letter is legal where
 * its capital is, and counts as that. */
static const char *const characters[] = {
    "0123456789ABCDEFGHIJKLMNOPQRSTUVWXYZ ", "0123456789ABCDEFGHIJKLMNOPQRSTUVWXYZ", "0123456789",
    "ABCDEFGHIJKLMNOPQRSTUVWXYZ ", "ABCDEFGHIJKLMNOPQRSTUVWXYZ ", "ABCDEFGHIJKLMNOPQRSTUVWXYZ ",
    "ABCDEFGHIJKLMNOPQR", "ABCDEFGHIJKLMNOPQR", "0123456789", "0123456789",
};

/* The capital of a small letter; any other byte as it is. */
static inline uint8_t capital_of(uint8_t byte)
{
    return byte >= 'a' && byte <= 'z' ? (uint8_t)(byte - 'a' + 'A') : byte;
}

/* The small letter of a capital; any other byte as it is. */
static inline uint8_t small_of(uint8_t byte)
{
    return byte >= 'A' && byte <= 'Z' ? (uint8_t)(byte - 'A' + 'a') : byte;
}

#endif

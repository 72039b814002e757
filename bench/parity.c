/* Forms of the parity of a masked register, each in a loop that puts down both coded bits of registers, as writing a
 * frame does. bench/parity counts the instructions of a turn. */
#include <stdint.h>

#define TURNS 256

/* By the compiler's own function: how the card counted the ones before. */
static inline uint8_t counted(uint32_t mask, uint32_t shifted)
{
    return (uint8_t)(__builtin_popcount(shifted & mask) % 2u);
}

static inline uint8_t folded(uint32_t mask, uint32_t shifted)
{
    uint32_t bits = shifted & mask;

    bits ^= bits >> 16;
    bits ^= bits >> 8;
    bits ^= bits >> 4;
    bits ^= bits >> 2;
    bits ^= bits >> 1;
    return (uint8_t)(bits % 2);
}

/* As the card has it: two folds, then the sum of the eight bits that they leave. */
static inline uint8_t summed(uint32_t mask, uint32_t shifted)
{
    uint32_t bits = shifted & mask;

    bits ^= bits >> 2;
    bits ^= bits >> 1;
    return (uint8_t)(((uint64_t)(bits & 0x11111111) * 0x88888888 & 0xFFFFFFFF) >> 31);
}

#define LOOP(name, parity)                                      \
    void name(const uint32_t *restrict shifted, uint8_t *coded) \
    {                                                           \
        for (uint32_t i = 0; i < TURNS; i++) {                  \
            coded[2 * i] = parity(0xF2D05351, shifted[i]);      \
            coded[2 * i + 1] = parity(0xE4613C47, shifted[i]);  \
        }                                                       \
    }

LOOP(by_count, counted)
LOOP(by_folds, folded)
LOOP(by_product, summed)

/* Status 1 where the forms differ. */
int main(void)
{
    uint32_t shifted[TURNS], next = 1;
    uint8_t coded[3][2 * TURNS];

    for (uint32_t round = 0; round < 4096; round++) {
        for (uint32_t i = 0; i < TURNS; i++)
            shifted[i] = next = next * 1664525 + 1013904223;
        by_count(shifted, coded[0]);
        by_folds(shifted, coded[1]);
        by_product(shifted, coded[2]);
        for (uint32_t i = 0; i < 2 * TURNS; i++)
            if (coded[1][i] != coded[0][i] || coded[2][i] != coded[0][i])
                return 1;
    }
    return 0;
}

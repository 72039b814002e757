/* A seeded generator (splitmix64) for the robustness tests, so that every run tries the same input. */
#ifndef GENERATOR_H
#define GENERATOR_H

#include <stddef.h>
#include <stdint.h>

struct generator {
    uint64_t state;
};

/* Any 64-bit number. */
static inline uint64_t draw(struct generator *g)
{
    uint64_t mixed = g->state += UINT64_C(0x9e3779b97f4a7c15);

    mixed = (mixed ^ mixed >> 30) * UINT64_C(0xbf58476d1ce4e5b9);
    mixed = (mixed ^ mixed >> 27) * UINT64_C(0x94d049bb133111eb);
    return mixed ^ mixed >> 31;
}

/* A number from 0 to count - 1. */
static inline uint64_t draw_below(struct generator *g, uint64_t count)
{
    return draw(g) % count;
}

/* True once in so many times. */
static inline int draw_once_in(struct generator *g, uint64_t times)
{
    return draw_below(g, times) == 0;
}

static inline void draw_bytes(struct generator *g, uint8_t *bytes, size_t len)
{
    for (size_t i = 0; i < len; i++)
        bytes[i] = (uint8_t)draw(g);
}

#endif

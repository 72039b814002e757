/* The fuzzer's bytes as input of the exports: raw, or built from right words, frames and numbers and then spoiled. */
#ifndef INPUT_H
#define INPUT_H

#include <stddef.h>
#include <stdint.h>

#include "generator.h"
#include "legal.h"

enum { LONGEST = 512 };

/* What is left of the fuzzer's bytes. Past their end come random ones, seeded by the bytes: the fuzzer shortens its
 * inputs as far as it can, and with zeros there the short ones would all be alike. */
struct input {
    const uint8_t *bytes;
    size_t left;
    struct generator rest;
};

struct content {
    size_t len;
    uint8_t bytes[LONGEST];
};

struct message {
    struct content callsign, locator;
    uint32_t power;
};

struct report {
    uint8_t first, third, grid5, grid6;
    uint32_t altitude;
    int32_t temperature;
    uint32_t voltage, speed, gps;
};

struct input input_of(const uint8_t *bytes, size_t count);

uint8_t take(struct input *in);
uint64_t take_number(struct input *in, size_t bytes);
uint64_t take_word(struct input *in);
uint32_t take_limit(struct input *in);
uint32_t take_budget(struct input *in, const struct content *frame, uint32_t limit);

/* A buffer to be written: its length, and one byte all over. */
void take_buffer(struct input *in, struct content *c, size_t exact);

void take_message(struct input *in, struct message *m);
void take_telemetry_message(struct input *in, struct message *m);
void take_frame(struct input *in, struct content *c);
void take_report(struct input *in, struct report *r);

#endif

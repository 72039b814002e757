/* The input of hostile.c: right, nearly right and wrong, from a seeded generator; and how it is to be refused. */
#ifndef HOSTILE_INPUT_H
#define HOSTILE_INPUT_H

#include <stddef.h>
#include <stdint.h>

#include "generator.h"
#include "legal.h"

enum { LONGEST = 4096 };

/* What a lent buffer is to hold. */
struct content {
    size_t len;
    uint8_t bytes[LONGEST];
};

struct message_input {
    struct content callsign, locator;
    uint32_t power;
};

/* Where one flipped data bit leaves the most prefixes live at limit 2. */
#define WORST_PLACE 105

struct frame_input {
    struct content symbols;
    int of_word; /* the frame of `word`, damaged or not; otherwise symbols of no known word */
    uint64_t word;
    uint32_t flips, sync_wrong; /* how many of the word's data bits and sync bits were turned over */
    int spoiled;                /* a symbol above 3 was put in */
};

struct report_input {
    uint8_t first, third, grid5, grid6;
    uint32_t altitude;
    int32_t temperature;
    uint32_t voltage, speed, gps;
};

/* A buffer to be written: random bytes of the exact length, or of a wrong one. */
void draw_buffer(struct generator *g, struct content *c, size_t exact);

void draw_message(struct generator *g, struct message_input *m);
void draw_telemetry_message(struct generator *g, struct message_input *m);
void draw_frame(struct generator *g, struct frame_input *f);
void draw_report(struct generator *g, struct report_input *r);
uint64_t draw_word(struct generator *g);
uint32_t draw_limit(struct generator *g);
uint32_t draw_budget(struct generator *g);

/* A refusal by the table of the header; 0 and 0 is none. */
struct refusal {
    uint32_t number, place;
};

int is_power(uint32_t power);

/* Small letters as their capitals. */
void make_capital_form(struct message_input *m);

/* What is to be refused of each where the lengths of other buffers are right. */
struct refusal message_refusal(const struct message_input *m);
struct refusal word_refusal(uint64_t word);
struct refusal report_refusal(const struct report_input *r);

#endif

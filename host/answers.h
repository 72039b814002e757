/* Prints answers and refusals on standard output, as plain text or as JSON. */
#ifndef ANSWERS_H
#define ANSWERS_H

#include <stddef.h>
#include <stdint.h>

#include "wsprcard.h"

#define CALLSIGN 6
#define LOCATOR 4
#define SYMBOLS 162

/* A refusal of the card; number 0 where nothing is refused. */
typedef struct {
    uint32_t number, place;
} refusal;

/* What a line is to be, or that it was cut off: it tells the reasons of refusal 1 apart. */
typedef enum { ANY_FORM, MESSAGE, FRAME, REPORT, CUT_OFF } form;

/* A message as the card gives it. Where it refuses there are no characters. */
typedef struct {
    wspr_message card;
    uint8_t callsign[CALLSIGN], locator[LOCATOR];
} message;

/* One way of printing. The words stand before the parts of a repair, and the last behind them. */
typedef struct {
    void (*refused)(refusal r, form of);
    void (*message)(const message *m);
    void (*frame)(const message *m, uint64_t word, const uint8_t *frame);
    void (*report)(const u4b_reading *r);
    struct {
        const char *word, *message, *telemetry, *disagreements, *live, *sync_wrong, *margin, *end;
    } repair;
} output;

extern const output plain_output, json_output;

/* A repair: its word, the word's message or refusal, and the message's report or refusal where there is a message. */
void print_repair(const output *out, const wspr_repaired *r, const message *m, const u4b_reading *telemetry);

#endif

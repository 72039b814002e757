/* The measured calls: each of the card with those by hand that do the same, and how they are called in a row. */
#ifndef CALLS_H
#define CALLS_H

#include "inputs.h"

/* The card's, the one by hand, and a second one by hand where there is one. */
#define CALLS 3

/* A call of any type: it is cast back before it is called. */
typedef void any_call(void);

/* What a call gave: its result, and the buffers that it may have written. */
typedef struct {
    union {
        wspr_written written;
        wspr_word word;
        wspr_message message;
        wspr_repaired repaired;
        u4b_reading reading;
    } result;
    uint8_t callsign[CALLSIGN], locator[LOCATOR], frame[SYMBOLS];
} answer;

/* Calls with the inputs from `from` up to `to`. The last answer stays. */
typedef void run(any_call *call, const inputs *in, size_t from, size_t to, answer *out);

typedef struct {
    run *run;
    any_call *calls[CALLS];
    size_t result_size; /* of a struct without padding: all its bytes are compared */
    draw *spoil;
} layer;

extern const layer pack, unpack, write_word, write_message, read_word, read_message, repair, write_report, read_report;

#endif

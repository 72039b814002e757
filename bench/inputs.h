/* The inputs of the benchmark: drawn by a seeded generator, so that every run measures the same ones. */
#ifndef INPUTS_H
#define INPUTS_H

#include "by_hand.h"
#include "message.h"
#include "symbols.h"

/* Many different ones, so that the branch predictor doesn't know them by heart. */
#define INPUTS 1024

typedef struct {
    uint8_t callsign[CALLSIGN], locator[LOCATOR];
    uint32_t power;
} message;

/* What a case's calls are given: one of the lists, and what is the same for all of its inputs. */
typedef struct {
    size_t callsign_len, locator_len, frame_len;
    uint32_t limit, budget;
    message messages[INPUTS];
    uint64_t words[INPUTS];
    uint8_t frames[INPUTS][SYMBOLS];
    u4b_reading reports[INPUTS]; /* in the units of u4b_write */
} inputs;

/* Draws one input into its list. */
typedef void draw(inputs *in, size_t i);

draw draw_message, draw_word, draw_word_of_message, draw_frame_of_word, draw_frame_of_message;
draw draw_worst_flip, draw_two_flips, draw_four_flips, draw_report, draw_message_of_report;

/* Symbols at random that aren't refused 16 with the limit and the budget of the inputs. */
draw draw_noise;

/* Changes one thing of an input, to what may be refused. */
draw spoil_message, spoil_word, spoil_frame, spoil_report, spoil_message_of_report;

/* What is the same for all inputs: right where `way` is 0, and a wrong length or bound at each from 1 on. */
#define WAYS 7

void set_common(inputs *in, uint32_t limit, uint32_t budget, uint32_t way);

#endif

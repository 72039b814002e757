/* Reads lines, the fields in a line and the numbers in a field. */
#ifndef LINES_H
#define LINES_H

#include <stdbool.h>
#include <stddef.h>
#include <stdint.h>
#include <stdio.h>

/* The most bytes of a line that are kept: more than any message, frame or report needs. */
#define LINE_KEPT 256

/* A line without its end, or the start of a line that is longer than what is kept. Two bytes more tell the two apart,
 * even when the last of them is a carriage return and is dropped: then `length` is still above LINE_KEPT. `cut_off` is
 * set where the input ended before a newline. */
typedef struct {
    uint8_t bytes[LINE_KEPT + 2];
    size_t length;
    bool cut_off;
} line;

/* A part of a line. */
typedef struct {
    const uint8_t *start;
    size_t length;
} span;

/* Reads the next line. False where there is none: at the end of the input, and where it can't be read. */
bool read_line(FILE *input, line *l);

/* The line without the separators around it, which are spaces and tabs. Of a longer line than is kept nothing: its
 * start could pass for a line. */
span text_of_line(const line *l);

/* Takes the last field off the text, and the separators before it. It is empty where there is none. */
span take_last_field(span *text);

bool is_digit(uint8_t c);

/* Decimal digits and nothing else, up to the largest number of the type. False where the text is anything else. */
bool read_number(span text, uint32_t *number);

/* The same, and numbers with at most one digit after a point, in tenths, the last with a sign. What isn't a number is
 * the largest number of the type: the card refuses it as it does every number out of its range. */
uint32_t number_in(span field);
uint32_t tenths_in(span field);
int32_t signed_tenths_in(span field);

#endif

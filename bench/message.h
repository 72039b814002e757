/* What the calls by hand on messages and telemetry share: a message taken apart, and its characters and powers. */
#ifndef MESSAGE_H
#define MESSAGE_H

#include <stddef.h>
#include <stdint.h>

#define CALLSIGN 6
#define LOCATOR 4
#define PLACES 10
#define POWERS 19

/* A refusal's number and place, or a message's digits at its places 0 to 9 and its power's index. */
typedef struct {
    uint32_t refusal, place;
    uint32_t digits[PLACES], index;
} parts;

/* Refusals 1, 2, 3. */
void take_apart(parts *message, const uint8_t *callsign, size_t callsign_len, const uint8_t *locator,
                size_t locator_len, uint32_t power);

extern const uint8_t powers[POWERS];

#endif

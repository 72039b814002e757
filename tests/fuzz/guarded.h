/* Buffers for the fuzzer: each stands at an end of its page, beside a page that no one may touch. */
#ifndef GUARDED_H
#define GUARDED_H

#include <stddef.h>
#include <stdint.h>

enum guard { CALLSIGN, LOCATOR, FRAME, GUARDS };

/* A buffer that is lent twice with the same content: to the card, guarded, and to the reference. */
struct guarded {
    uint8_t *card, *reference;
    size_t len;
};

/* A length of 0 may be lent as NULL. */
struct guarded lend_guarded(enum guard guard, const uint8_t *content, size_t len, int at_start, int null);

/* Whether the card left the same bytes as the reference in all buffers, and none beside them. */
int guards_agree(void);

#endif

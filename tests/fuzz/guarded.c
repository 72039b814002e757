/* Buffers for the fuzzer: each stands at an end of its page, beside a page that no one may touch. */
#define _DEFAULT_SOURCE
#include "guarded.h"

#include <stdio.h>
#include <stdlib.h>
#include <string.h>
#include <sys/mman.h>

enum { PAGE = 4096, FILLER = 0xa5 };

/* What the card's page holds, what it is to hold, and where in it the buffer stands. */
static struct {
    uint8_t *page;
    uint8_t expected[PAGE];
    size_t start, len;
} guards[GUARDS];

/* A page between two that can be neither read nor written. */
static uint8_t *guarded_page(void)
{
    uint8_t *pages = mmap(NULL, 3 * PAGE, PROT_NONE, MAP_PRIVATE | MAP_ANONYMOUS, -1, 0);

    if (pages == MAP_FAILED || mprotect(pages + PAGE, PAGE, PROT_READ | PROT_WRITE) != 0) {
        perror("fuzz: no guarded page");
        exit(1);
    }
    return pages + PAGE;
}

static void prepare(enum guard guard)
{
    if (!guards[guard].page) {
        guards[guard].page = guarded_page();
        guards[guard].len = PAGE;
    }
    memset(guards[guard].page + guards[guard].start, FILLER, guards[guard].len);
    memset(guards[guard].expected + guards[guard].start, FILLER, guards[guard].len);
}

struct guarded lend_guarded(enum guard guard, const uint8_t *content, size_t len, int at_start, int null)
{
    size_t start = at_start ? 0 : PAGE - len;
    struct guarded lent = {NULL, NULL, len};

    prepare(guard);
    guards[guard].start = start;
    guards[guard].len = len;
    if (len == 0 && null)
        return lent;
    lent.card = guards[guard].page + start;
    lent.reference = guards[guard].expected + start;
    memcpy(lent.card, content, len);
    memcpy(lent.reference, content, len);
    return lent;
}

int guards_agree(void)
{
    for (enum guard guard = 0; guard < GUARDS; guard++)
        if (guards[guard].page && memcmp(guards[guard].page, guards[guard].expected, PAGE) != 0)
            return 0;
    return 1;
}

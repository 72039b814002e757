/* The nine exports, the refusals that each may give, and counts of what they gave in a test. */
#include "exports.h"

#include <inttypes.h>
#include <stdio.h>

enum { TIE = 18 };

/* The refusals of each are ended by 0. */
static const struct {
    const char *name;
    uint32_t refusals[9];
} exports[EXPORTS] = {
    [PACK] = {"wspr_pack", {1, 2, 3}},
    [UNPACK] = {"wspr_unpack", {1, 4, 5, 6}},
    [WRITE_WORD] = {"wspr_write_word", {1, 4}},
    [WRITE_MESSAGE] = {"wspr_write_message", {1, 2, 3}},
    [READ_WORD] = {"wspr_read_word", {1, 7, 8, 9}},
    [READ_MESSAGE] = {"wspr_read_message", {1, 7, 8, 9, 4, 5, 6}},
    [REPAIR] = {"wspr_repair", {1, 15, 7, 16, 17, TIE}},
    [U4B_WRITE] = {"u4b_write", {1, 14}},
    [U4B_READ] = {"u4b_read", {1, 2, 3, 10, 11, 12, 13}},
};

static unsigned long counts[EXPORTS][REFUSALS];

const char *export_name(enum export export)
{
    return exports[export].name;
}

int may_refuse(enum export export, uint32_t refusal)
{
    const uint32_t *given = exports[export].refusals;

    while (*given != 0 && *given != refusal)
        given++;
    return *given == refusal;
}

void count_answer(enum export export, uint32_t refusal)
{
    counts[export][refusal]++;
}

/* How many calls were answered, and how many were refused by each number. */
static void print_counts(enum export export)
{
    printf("%s: %lu answered; refused", exports[export].name, counts[export][0]);
    for (uint32_t refusal = 1; refusal < REFUSALS; refusal++)
        if (counts[export][refusal] > 0)
            printf(" %" PRIu32 ": %lu", refusal, counts[export][refusal]);
    putchar('\n');
}

static int saw_all(enum export export)
{
    int all = 1;

    for (uint32_t refusal = 0; refusal < REFUSALS; refusal++) {
        if (!may_refuse(export, refusal) || refusal == TIE || counts[export][refusal] > 0)
            continue;
        printf("%s never gave %" PRIu32 ": too little was tried\n", exports[export].name, refusal);
        all = 0;
    }
    return all;
}

int report_answers(void)
{
    int all = 1;

    for (enum export export = 0; export < EXPORTS; export++) {
        print_counts(export);
        all &= saw_all(export);
    }
    return all;
}

/* The nine exports, the refusals that each may give, and counts of what they gave in a test. */
#ifndef EXPORTS_H
#define EXPORTS_H

#include <stdint.h>

enum export {
    PACK,
    UNPACK,
    WRITE_WORD,
    WRITE_MESSAGE,
    READ_WORD,
    READ_MESSAGE,
    REPAIR,
    U4B_WRITE,
    U4B_READ,
    EXPORTS
};

/* Refusals are below it; 0 is success. */
enum { REFUSALS = 19 };

const char *export_name(enum export export);
int may_refuse(enum export export, uint32_t refusal);
void count_answer(enum export export, uint32_t refusal);

/* Prints the counts, a line for each export. False if one wasn't seen to succeed and to give each of its refusals, so
 * that a test that tries too little fails. Only a tie (18) may be missing: none is known within the largest limit. */
int report_answers(void);

#endif

/* Two searches written by hand in C, without proofs: the same tree, the same answers and refusals as wspr_repair. The
 * plain one goes down the tree by recursion; the tuned one has few branches that are hard to predict. */
#include "by_hand.h"
#include "symbols.h"

#define LARGEST_LIMIT 12
#define LARGEST_BUDGET 65536

/* What a clocked 1 adds to the coded bits of the 31 steps after it, two bits a step from the lowest on: the masks
 * F2D05351 and E4613C47 from their bit 1 on, interleaved, with the first mask's bits above the second's. */
#define ADDED UINT64_C(0x3f862d8049d68c85)

/* A prefix of a word: its bits, the newest lowest; the coded bits to come if only zeros follow, two a step from the
 * lowest on; how many bits it has; and how many more disagreements it may have. Below 0 it isn't live. */
typedef struct {
    uint64_t bits, coming;
    uint32_t length;
    int32_t left;
} prefix;

/* What a search is to find, and what it has found so far. */
typedef struct {
    const uint8_t *received; /* two bits a step, the first coded bit above the second */
    uint32_t limit, budget;
    uint32_t nearest, next; /* the disagreements of the two nearest words so far; limit + 1 where there is none */
    wspr_repaired *found;
} task;

typedef uint32_t search(task *t);

/* A byte of the sum counts up to 20, and all of them together are below 256. Two symbols are left over. */
static uint32_t count_sync_wrong(const uint8_t *frame)
{
    uint64_t wrong = 0;

    for (size_t i = 0; i + 8 <= SYMBOLS; i += 8)
        wrong += (eight(frame + i) ^ eight(sync_bits + i)) & EACH_BYTE;
    wrong = wrong * EACH_BYTE >> 56;
    wrong += (frame[SYMBOLS - 2] ^ sync_bits[SYMBOLS - 2]) & 1u;
    wrong += (frame[SYMBOLS - 1] ^ sync_bits[SYMBOLS - 1]) & 1u;
    return (uint32_t)wrong;
}

/* Makes a prefix one bit longer, either way: it becomes its child with the fewer disagreements, and `other` the other
 * one. Both masks take the newest bit, so that the coded bits of a 1 are the complements of those of a 0, and the two
 * children cost 2 disagreements together. */
static inline void extend(prefix *nearer, prefix *other, uint32_t received)
{
    uint32_t differing = ((uint32_t)nearer->coming & 3) ^ received;
    uint64_t bit = differing & differing >> 1;
    int32_t cost = (differing ^ differing >> 1) & 1;

    other->bits = nearer->bits << 1 | (bit ^ 1);
    other->coming = nearer->coming >> 2 ^ (ADDED & (bit - 1));
    other->length = nearer->length + 1;
    other->left = nearer->left - (2 - cost);
    nearer->bits = nearer->bits << 1 | bit;
    nearer->coming = nearer->coming >> 2 ^ (ADDED & -bit);
    nearer->length++;
    nearer->left -= cost;
}

/* Clocks the zeros in after a word's bits, and counts what is live. Returns what is left of the limit. */
static int32_t clock_tail(const uint8_t *received, const prefix *word, uint32_t *live)
{
    uint64_t coming = word->coming;
    int32_t left = word->left;

    for (size_t i = WORD_BITS; i < CLOCKED; i++) {
        uint32_t differing = ((uint32_t)coming & 3) ^ received[i];

        left -= (int32_t)((differing >> 1) + (differing & 1));
        if (left < 0)
            break;
        ++*live;
        coming >>= 2;
    }
    return left;
}

/* The answer's numbers, by the disagreements of the two nearest words. Returns the refusal's number. */
static uint32_t conclude(task *t)
{
    t->found->disagreements = t->nearest;
    t->found->margin = t->next - t->nearest;
    return t->nearest > t->limit ? 17 : t->next == t->nearest ? 18 : 0;
}

/* Depth first, the nearer child first. The other one is put on the stack in any case and stays there only if it is
 * live: a branch would be mispredicted too often. Returns the refusal's number. */
static uint32_t search_tuned(task *t)
{
    const uint8_t *received = t->received;
    prefix stack[WORD_BITS], now = {0, 0, 0, (int32_t)t->limit};
    uint32_t budget = t->budget, waiting = 0, live = 0;
    int32_t most = -1, second = -1; /* what the two nearest words leave of the limit */

    for (;;) {
        while (now.length < WORD_BITS) {
            extend(&now, &stack[waiting], received[now.length]);
            if (now.left < 0)
                break;
            live += 1u + (stack[waiting].left >= 0);
            waiting += stack[waiting].left >= 0;
            if (live > budget)
                return 16;
        }
        if (now.left >= 0) {
            int32_t left = clock_tail(received, &now, &live);

            if (live > budget)
                return 16;
            if (left > most) {
                second = most;
                most = left;
                t->found->word = now.bits;
            } else if (left > second) {
                second = left;
            }
        }
        if (waiting == 0)
            break;
        now = stack[--waiting];
    }
    t->found->live = live;
    t->nearest = t->limit - (uint32_t)most;
    t->next = t->limit - (uint32_t)second;
    return conclude(t);
}

/* A word within the limit: the nearest so far, or the next. */
static void take_word(task *t, uint64_t word, uint32_t distance)
{
    if (distance < t->nearest) {
        t->next = t->nearest;
        t->nearest = distance;
        t->found->word = word;
    } else if (distance < t->next) {
        t->next = distance;
    }
}

/* Visits what is longer than a live prefix: its bits, the newest lowest, and the register after the tail's zeros. */
static uint32_t visit(task *t, uint32_t length, uint64_t bits, uint32_t bits_and_tail, uint32_t distance)
{
    uint32_t branches = length < WORD_BITS ? 2 : 1, differing, of_zero;

    if (length == CLOCKED) {
        take_word(t, bits, distance);
        return 0;
    }
    differing = (uint32_t)__builtin_parity(bits_and_tail << 1 & FIRST_MASK) << 1;
    differing = (differing | (uint32_t)__builtin_parity(bits_and_tail << 1 & SECOND_MASK)) ^ t->received[length];
    of_zero = (differing >> 1) + (differing & 1);
    for (uint32_t bit = 0; bit < branches; bit++) {
        uint32_t longer = distance + (bit ? 2 - of_zero : of_zero);

        if (longer > t->limit)
            continue;
        if (++t->found->live > t->budget)
            return 16;
        if (visit(t, length + 1, length < WORD_BITS ? bits << 1 | bit : bits, bits_and_tail << 1 | bit, longer))
            return 16;
    }
    return 0;
}

static uint32_t search_plain(task *t)
{
    uint32_t over = visit(t, 0, 0, 0, 0);

    return over ? over : conclude(t);
}

static wspr_repaired refused(uint32_t refusal, uint32_t place)
{
    return (wspr_repaired){.refusal = refusal, .place = place};
}

static wspr_repaired repair_by(search *by, const uint8_t *frame, size_t frame_len, uint32_t limit, uint32_t budget)
{
    uint8_t received[CLOCKED];
    wspr_repaired found = {0};
    task t = {received, limit, budget, limit + 1, limit + 1, &found};
    uint32_t place, refusal;

    if (frame_len != SYMBOLS)
        return refused(1, 0);
    if (limit > LARGEST_LIMIT)
        return refused(15, 0);
    if (budget == 0 || budget > LARGEST_BUDGET)
        return refused(15, 1);
    place = first_above_3(frame);
    if (place < SYMBOLS)
        return refused(7, place);
    for (size_t i = 0; i < CLOCKED; i++)
        received[i] = (uint8_t)((frame[places[2 * i]] & 2) | frame[places[2 * i + 1]] >> 1);
    refusal = by(&t);
    if (refusal)
        return refused(refusal, 0);
    found.sync_wrong = count_sync_wrong(frame);
    return found;
}

wspr_repaired tuned_repair(const uint8_t *frame, size_t frame_len, uint32_t limit, uint32_t budget)
{
    return repair_by(search_tuned, frame, frame_len, limit, budget);
}

wspr_repaired plain_repair(const uint8_t *frame, size_t frame_len, uint32_t limit, uint32_t budget)
{
    return repair_by(search_plain, frame, frame_len, limit, budget);
}

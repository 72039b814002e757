/* Measures the card's calls and the same work by hand in C side by side in one run: ns a call, and the ratios.
 *
 *   bench [rounds [case]]    all cases, or the one with this number from 0 on */
#define _POSIX_C_SOURCE 199309L
#include <inttypes.h>
#include <stdio.h>
#include <stdlib.h>

#include "calls.h"
#include "spread.h"

#define ROUNDS 51

/* Noise is refused 17: its live count is within the budget, and no word is within the limit. At limit 12 no frame was
 * found that is within the largest budget: every one is refused 16, after 65,536 prefixes. */
static const struct measured {
    const char *what;
    const layer *layer;
    draw *draw;
    uint32_t limit, budget;
    uint32_t refusal; /* the answer to all its inputs */
    size_t count;     /* of its inputs */
    uint32_t turns;   /* through all inputs in a round */
} cases[] = {
    {"pack a message", &pack, draw_message, 0, 1, 0, INPUTS, 20},
    {"unpack a word", &unpack, draw_word_of_message, 0, 1, 0, INPUTS, 20},
    {"write a message's frame", &write_message, draw_message, 0, 1, 0, INPUTS, 2},
    {"write a word's frame", &write_word, draw_word, 0, 1, 0, INPUTS, 2},
    {"read a frame to its message", &read_message, draw_frame_of_message, 0, 1, 0, INPUTS, 2},
    {"read a frame to its word", &read_word, draw_frame_of_word, 0, 1, 0, INPUTS, 2},
    {"repair, clean, limit 2", &repair, draw_frame_of_word, 2, 16000, 0, INPUTS, 1},
    {"repair, worst flip, limit 2", &repair, draw_worst_flip, 2, 16000, 0, INPUTS, 1},
    {"repair, two flips, limit 2", &repair, draw_two_flips, 2, 16000, 0, INPUTS, 1},
    {"repair, clean, limit 4", &repair, draw_frame_of_word, 4, 65536, 0, INPUTS, 1},
    {"repair, four flips, limit 4", &repair, draw_four_flips, 4, 65536, 0, INPUTS, 1},
    {"repair, noise, limit 4", &repair, draw_noise, 4, 65536, 17, INPUTS, 1},
    {"repair, clean, limit 8", &repair, draw_frame_of_word, 8, 65536, 0, 32, 1},
    {"repair, noise, limit 11", &repair, draw_noise, 11, 65536, 17, 32, 1},
    {"repair, over budget, limit 12", &repair, draw_frame_of_word, 12, 65536, 16, 32, 1},
    {"write telemetry", &write_report, draw_report, 0, 1, 0, INPUTS, 20},
    {"read telemetry", &read_report, draw_message_of_report, 0, 1, 0, INPUTS, 20},
};

enum { CASES = sizeof cases / sizeof *cases };

static size_t answers_held, refusals_held;

/* The answer to one input. Buffers that aren't written keep what they held. */
static answer answer_of(const layer *l, size_t k, const inputs *in, size_t i)
{
    answer out;

    memset(&out, '.', sizeof out);
    l->run(l->calls[k], in, i, i + 1, &out);
    return out;
}

static int same(const layer *l, const answer *a, const answer *b)
{
    return !memcmp(&a->result, &b->result, l->result_size) && !memcmp(a->callsign, b->callsign, CALLSIGN) &&
           !memcmp(a->locator, b->locator, LOCATOR) && !memcmp(a->frame, b->frame, SYMBOLS);
}

/* Holds a call by hand to the card's answer to every input. This warms both up, too. */
static void hold(const struct measured *c, size_t k, const inputs *in)
{
    for (size_t i = 0; i < c->count; i++) {
        answer card = answer_of(c->layer, 0, in, i), by_hand = answer_of(c->layer, k, in, i);

        if (!same(c->layer, &card, &by_hand)) {
            fprintf(stderr, "%s, input %zu, call %zu by hand: its answer isn't the card's (refused %" PRIu32
                    ", the card %" PRIu32 ")\n",
                    c->what, i, k, by_hand.result.written.refusal, card.result.written.refusal);
            exit(1);
        }
        answers_held++;
        refusals_held += card.result.written.refusal != 0;
    }
}

static void hold_all(const struct measured *c, const inputs *in)
{
    for (size_t k = 1; k < CALLS && c->layer->calls[k]; k++)
        hold(c, k, in);
}

static void draw_inputs(const struct measured *c, inputs *in, draw *spoil)
{
    set_common(in, c->limit, c->budget, 0);
    for (size_t i = 0; i < c->count; i++) {
        c->draw(in, i);
        if (spoil)
            spoil(in, i);
    }
}

/* The card's answers to the inputs that are timed: the refusal that the case is about. */
static void hold_refusal(const struct measured *c, const inputs *in)
{
    for (size_t i = 0; i < c->count; i++) {
        uint32_t refusal = answer_of(c->layer, 0, in, i).result.written.refusal;

        if (refusal != c->refusal) {
            fprintf(stderr, "%s, input %zu: refused %" PRIu32 "\n", c->what, i, refusal);
            exit(1);
        }
    }
}

/* How many ns of the processor a call takes. It isn't inlined, so that a profiler can tell what is timed from the
 * rest. */
__attribute__((noinline)) static double time_calls(const struct measured *c, any_call *call, const inputs *in)
{
    static answer out;
    struct timespec start, end;

    clock_gettime(CLOCK_PROCESS_CPUTIME_ID, &start);
    for (uint32_t turn = 0; turn < c->turns; turn++)
        c->layer->run(call, in, 0, c->count, &out);
    clock_gettime(CLOCK_PROCESS_CPUTIME_ID, &end);
    return ns_between(start, end) / (double)c->count / c->turns;
}

/* One round: every call of the case in turn. */
static void time_round(const struct measured *c, const inputs *in, double times[CALLS][MOST_TIMES], size_t round)
{
    for (size_t k = 0; k < CALLS && c->layer->calls[k]; k++)
        times[k][round] = time_calls(c, c->layer->calls[k], in);
}

/* The median of the rounds' ratios. What slows a whole round down leaves its ratio as it is. */
static double median_ratio(const double *card, const double *by_hand, size_t rounds)
{
    double ratios[MOST_TIMES];

    for (size_t i = 0; i < rounds; i++)
        ratios[i] = card[i] / by_hand[i];
    return sort_to_median(ratios, rounds);
}

/* The mean live count of the inputs of a repair that answers them all. */
static double mean_live(const struct measured *c, const inputs *in)
{
    double live = 0;

    for (size_t i = 0; i < c->count; i++)
        live += answer_of(c->layer, 0, in, i).result.repaired.live;
    return live / (double)c->count;
}

/* Of a repair that answers: the live count, and the card's time for each of these prefixes. */
static void print_live(const struct measured *c, const inputs *in, const double *card, size_t rounds)
{
    double sorted[MOST_TIMES], live = mean_live(c, in);

    memcpy(sorted, card, rounds * sizeof *card);
    printf(" %6.0f %5.2f", live, sort_to_median(sorted, rounds) / live);
}

static void print_row(const struct measured *c, const inputs *in, double times[CALLS][MOST_TIMES], size_t rounds)
{
    printf("%-30s %6zu", c->what, c->count * c->turns);
    for (size_t k = 0; k < CALLS && c->layer->calls[k]; k++) {
        print_times(times[k], rounds);
        if (k > 0)
            printf(" %6.2f", median_ratio(times[0], times[k], rounds));
    }
    if (c->layer == &repair && c->refusal == 0)
        print_live(c, in, times[0], rounds);
    printf("\n");
    fflush(stdout);
}

/* The calls by hand are held to the card's answers to spoilt inputs first, then to those that are timed. */
static void check_case(const struct measured *c, inputs *in)
{
    for (uint32_t way = 0; way < WAYS; way++) {
        draw_inputs(c, in, c->layer->spoil);
        set_common(in, c->limit, c->budget, way);
        hold_all(c, in);
    }
    draw_inputs(c, in, NULL);
    hold_all(c, in);
    hold_refusal(c, in);
}

/* All calls are timed in every round, so that whatever else the machine does meets all. */
static void measure(const struct measured *c, size_t rounds)
{
    static inputs in;
    static double times[CALLS][MOST_TIMES];

    check_case(c, &in);
    for (size_t round = 0; round < rounds; round++)
        time_round(c, &in, times, round);
    print_row(c, &in, times, rounds);
}

/* The number that stands as an argument, within its bounds, or another where none does. */
static size_t argument(const char *given, size_t otherwise, size_t least, size_t most)
{
    unsigned long number = given ? strtoul(given, NULL, 10) : otherwise;

    return number < least ? least : number > most ? most : number;
}

int main(int argc, char **argv)
{
    size_t rounds = argument(argc > 1 ? argv[1] : NULL, ROUNDS, 1, MOST_TIMES);
    size_t first = argument(argc > 2 ? argv[2] : NULL, 0, 0, CASES - 1), end = argc > 2 ? first + 1 : CASES;

    printf("ns a call, medians of %zu rounds of so many calls, with half the distance of their quartiles;\n", rounds);
    printf("ratios are the card's time by that of the call by hand in the same round, medians too;\n");
    printf("live is the mean live count, and each the card's ns for each of these prefixes\n\n");
    printf("%-30s %6s %16s %16s %6s %16s %6s %6s %5s\n", "", "calls", "card", "C", "ratio", "tuned C", "ratio", "live",
           "each");
    for (size_t i = first; i < end; i++)
        measure(&cases[i], rounds);
    printf("\nBefore, the calls by hand gave the card's answers to %zu inputs, of which it refuses %zu.\n",
           answers_held, refusals_held);
    return 0;
}

/* Runs the fuzzer's harness without the fuzzer, on random inputs from a seeded generator: fuzz_random INPUTS [SEED]. */
#include <stdio.h>
#include <stdlib.h>

#include "card.h"
#include "exports.h"
#include "generator.h"

enum { LONGEST_INPUT = 256 };

int main(int argc, char **argv)
{
    unsigned long inputs = argc > 1 ? strtoul(argv[1], NULL, 10) : 0;
    struct generator g = {argc > 2 ? strtoull(argv[2], NULL, 10) : 1};
    uint8_t bytes[LONGEST_INPUT];

    for (unsigned long i = 0; i < inputs; i++) {
        size_t len = 1 + draw_below(&g, LONGEST_INPUT);

        draw_bytes(&g, bytes, len);
        LLVMFuzzerTestOneInput(bytes, len);
    }
    return report_answers() ? 0 : 1;
}

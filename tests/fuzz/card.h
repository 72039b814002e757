/* The harness's entry, under the name by which libFuzzer calls it. */
#ifndef CARD_H
#define CARD_H

#include <stddef.h>
#include <stdint.h>

int LLVMFuzzerTestOneInput(const uint8_t *bytes, size_t count);

#endif

/* Repairs a few frames through the C interface, clean and damaged, and prints what a host sees. */
#include <inttypes.h>
#include <stddef.h>
#include <stdio.h>

#include "wsprcard.h"

#define SYMBOLS 162

/* Where one flipped data bit leaves the most prefixes live at limit 2. */
#define WORST_PLACE 105

/* Where the library writes the last number, the margin: tests/c/layout.c sees that it writes no further. */
_Static_assert(offsetof(wspr_repaired, margin) == 28 && sizeof(wspr_repaired) == 32, "layout");

/* What a repair says of the frame, and what message its word is. */
static void repair_and_print(const char *what, const uint8_t *frame, size_t len, uint32_t limit, uint32_t budget)
{
    uint8_t callsign[6], locator[4];
    wspr_repaired r = wspr_repair(frame, len, limit, budget);
    wspr_message m;

    printf("%s, limit %" PRIu32 ", budget %" PRIu32 ": ", what, limit, budget);
    if (r.refusal) {
        printf("refused %" PRIu32 " place %" PRIu32 "\n", r.refusal, r.place);
        return;
    }
    printf("word %013" PRIx64 ", disagreements %" PRIu32 ", live %" PRIu32 ", sync wrong %" PRIu32, r.word,
           r.disagreements, r.live, r.sync_wrong);
    printf(", margin %" PRIu32 ", ", r.margin);
    m = wspr_unpack(r.word, callsign, sizeof callsign, locator, sizeof locator);
    if (m.refusal)
        printf("message refused %" PRIu32 " place %" PRIu32 "\n", m.refusal, m.place);
    else
        printf("message \"%.6s\" %.4s %" PRIu32 " dBm\n", (const char *)callsign, (const char *)locator, m.power);
}

/* A clean frame, then more and more of it damaged. */
static void repair_damage(uint8_t *frame)
{
    for (uint32_t limit = 0; limit <= 2; limit++)
        repair_and_print("clean frame", frame, SYMBOLS, limit, 16000);
    repair_and_print("clean frame", frame, SYMBOLS, 2, 131);
    repair_and_print("clean frame", frame, SYMBOLS, 2, 130);
    repair_and_print("clean frame", frame, SYMBOLS, 12, 65536);
    frame[WORST_PLACE] ^= 2;
    repair_and_print("data bit 105 flipped", frame, SYMBOLS, 2, 135);
    repair_and_print("data bit 105 flipped", frame, SYMBOLS, 2, 134);
    frame[WORST_PLACE] ^= 2;
    frame[40] ^= 2;
    frame[117] ^= 2;
    repair_and_print("data bits 40 and 117 flipped", frame, SYMBOLS, 2, 16000);
    repair_and_print("data bits 40 and 117 flipped", frame, SYMBOLS, 1, 16000);
    for (size_t i = 0; i < 9; i++)
        frame[i] ^= 1;
    repair_and_print("sync bits 0 to 8 flipped too", frame, SYMBOLS, 2, 16000);
    for (size_t i = 9; i < SYMBOLS; i++)
        frame[i] ^= 1;
    repair_and_print("all sync bits flipped too", frame, SYMBOLS, 2, 16000);
    frame[0] ^= 2;
    repair_and_print("data bit 0 flipped too", frame, SYMBOLS, 2, 16000);
    repair_and_print("data bit 0 flipped too", frame, SYMBOLS, 3, 16000);
    frame[161] ^= 2;
    repair_and_print("data bit 161 flipped too", frame, SYMBOLS, 4, 65536);
    frame[80] ^= 2;
    repair_and_print("data bit 80 flipped too", frame, SYMBOLS, 4, 65536);
}

/* Two words whose frames differ in just 28 data bits: so many must be flipped, less the limit, for the wrong one. */
static void repair_between(void)
{
    uint8_t frame[SYMBOLS], other[SYMBOLS];
    unsigned flips = 0;

    wspr_write_word(0, frame, SYMBOLS);
    wspr_write_word(0x546c3, other, SYMBOLS);
    for (size_t i = 0; i < SYMBOLS; i++) {
        if (frame[i] == other[i])
            continue;
        frame[i] = other[i];
        if (++flips == 4 || flips == 5 || flips == 23 || flips == 24 || flips == 28) {
            printf("%u flips: ", flips);
            repair_and_print("from word 0 to word 546c3", frame, SYMBOLS, 4, 65536);
        }
    }
}

/* What is refused before any search, the last refusal first. */
static void repair_refused(uint8_t *frame)
{
    frame[7] = 4;
    frame[9] = 255;
    repair_and_print("symbols 7 and 9 above 3", frame, SYMBOLS, 2, 16000);
    repair_and_print("the same", frame, SYMBOLS, 2, 0);
    repair_and_print("the same", frame, SYMBOLS, 2, 65537);
    repair_and_print("the same", frame, SYMBOLS, 13, 0);
    repair_and_print("its first 161 symbols", frame, SYMBOLS - 1, 13, 0);
    repair_and_print("163 symbols", frame, SYMBOLS + 1, 2, 16000);
    repair_and_print("0 symbols", frame, 0, 2, 16000);
    repair_and_print("NULL with 0 symbols", NULL, 0, 2, 16000);
}

int main(void)
{
    uint8_t frame[SYMBOLS + 1] = {0};

    wspr_write_message((const uint8_t *)" K1ABC", 6, (const uint8_t *)"FN20", 4, 37, frame, SYMBOLS);
    repair_damage(frame);
    repair_refused(frame);
    repair_between();
    wspr_write_word((UINT64_C(1) << 50) - 1, frame, SYMBOLS);
    frame[161] ^= 2;
    repair_and_print("word 3ffffffffffff, data bit 161 flipped", frame, SYMBOLS, 2, 16000);
    return 0;
}

/* Writes a few frames through the C interface and strictly reads them, clean and damaged, and prints what a host sees. */
#include <inttypes.h>
#include <stdio.h>
#include <string.h>

#include "wsprcard.h"

#define SYMBOLS 162

static void print_frame(const uint8_t *frame)
{
    for (size_t i = 0; i < SYMBOLS; i++)
        putchar('0' + frame[i]);
    putchar('\n');
}

static void print_written(const char *what, wspr_written w)
{
    if (w.refusal)
        printf("%s: refused %" PRIu32 " place %" PRIu32 "\n", what, w.refusal, w.place);
    else
        printf("%s: written\n", what);
}

/* What both strict readings say of a frame. */
static void read_and_print(const char *what, const uint8_t *frame, size_t len)
{
    uint8_t callsign[6], locator[4];
    wspr_word w = wspr_read_word(frame, len);
    wspr_message m = wspr_read_message(frame, len, callsign, sizeof callsign, locator, sizeof locator);

    printf("%s: ", what);
    if (w.refusal)
        printf("word refused %" PRIu32 " place %" PRIu32 ", ", w.refusal, w.place);
    else
        printf("word %013" PRIx64 ", ", w.word);
    if (m.refusal)
        printf("message refused %" PRIu32 " place %" PRIu32 "\n", m.refusal, m.place);
    else
        printf("message \"%.6s\" %.4s %" PRIu32 " dBm\n", (const char *)callsign, (const char *)locator, m.power);
}

int main(void)
{
    uint8_t frame[SYMBOLS];

    print_written("\" K1ABC\" FN20 37 dBm",
                  wspr_write_message((const uint8_t *)" K1ABC", 6, (const uint8_t *)"FN20", 4, 37, frame, SYMBOLS));
    print_frame(frame);
    read_and_print("as it was written", frame, SYMBOLS);
    memset(frame, 0, sizeof frame);
    print_written("\" k1abc\" fn20 37 dBm",
                  wspr_write_message((const uint8_t *)" k1abc", 6, (const uint8_t *)"fn20", 4, 37, frame, SYMBOLS));
    print_frame(frame);
    read_and_print("as it was written", frame, SYMBOLS);
    read_and_print("its first 161 symbols", frame, SYMBOLS - 1);
    frame[40] ^= 2;
    read_and_print("data bit 40 flipped", frame, SYMBOLS);
    frame[161] ^= 1;
    read_and_print("sync bit 161 flipped too", frame, SYMBOLS);
    frame[7] += 4;
    read_and_print("symbol 7 above 3 too", frame, SYMBOLS);

    print_written("word 3ffffffffffff", wspr_write_word((UINT64_C(1) << 50) - 1, frame, SYMBOLS));
    read_and_print("as it was written", frame, SYMBOLS);
    print_written("word 4000000000000", wspr_write_word(UINT64_C(1) << 50, frame, SYMBOLS));
    return 0;
}

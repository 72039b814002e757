/* Packs and unpacks a few messages through the C interface, and prints what a host sees. */
#include <inttypes.h>
#include <stdio.h>
#include <string.h>

#include "wsprcard.h"

static const struct {
    const char *callsign, *locator;
    uint32_t power;
} messages[] = {
    {" K1ABC", "FN20", 37}, {"QQ2XFT", "GP99", 37}, {"0Z0AAH", "RM31", 40}, {" k1abc", "fn20", 37},
    {"qQ2xFt", "Gp99", 37}, {" k1ab{", "fn20", 37}, {"K1ABC", "FN20", 37},  {" K1ABC", "FS20", 37},
    {" k1abc", "fs20", 37}, {" K1ABC", "FN20", 38},
};

/* 2^50; the first callsign number past the end; the first locator number past the end; no power in the low bits. */
static const uint64_t words[] = {
    UINT64_C(1) << 50,
    UINT64_C(262177560) << 22,
    (UINT64_C(259047992) << 22) | (32400 << 7) | (37 + 64),
    (UINT64_C(259047992) << 22) | (22990 << 7) | 37,
};

static void unpack_and_print(uint64_t word)
{
    uint8_t callsign[6], locator[4];
    wspr_message m = wspr_unpack(word, callsign, sizeof callsign, locator, sizeof locator);

    if (m.refusal)
        printf("refused %" PRIu32 " place %" PRIu32 "\n", m.refusal, m.place);
    else
        printf("\"%.6s\" %.4s %" PRIu32 " dBm\n", (const char *)callsign, (const char *)locator, m.power);
}

int main(void)
{
    for (size_t i = 0; i < sizeof messages / sizeof *messages; i++) {
        const char *callsign = messages[i].callsign, *locator = messages[i].locator;
        wspr_word w = wspr_pack((const uint8_t *)callsign, strlen(callsign), (const uint8_t *)locator, strlen(locator),
                                messages[i].power);

        printf("\"%s\" %s %" PRIu32 " dBm: ", callsign, locator, messages[i].power);
        if (w.refusal) {
            printf("refused %" PRIu32 " place %" PRIu32 "\n", w.refusal, w.place);
        } else {
            printf("word %013" PRIx64 ", read back ", w.word);
            unpack_and_print(w.word);
        }
    }
    for (size_t i = 0; i < sizeof words / sizeof *words; i++) {
        printf("word %013" PRIx64 ": ", words[i]);
        unpack_and_print(words[i]);
    }
    return 0;
}

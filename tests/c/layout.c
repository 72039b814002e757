/* What the calls write that return a struct of more than 16 bytes. On x86-64 the caller passes where it is to be
 * written; here the calls are declared that way, so that every byte is seen: a struct of the library that is larger
 * than the header's writes past the last byte that is shown. Neither struct has padding. */
#include <stddef.h>
#include <stdint.h>
#include <stdio.h>
#include <string.h>

enum { FRAME = 162, ROOM = 96 };

void *wspr_repair(void *result, const uint8_t *frame, size_t frame_len, uint32_t limit, uint32_t budget);
void *u4b_read(void *result, const uint8_t *callsign, size_t callsign_len, const uint8_t *locator, size_t locator_len,
               uint32_t power);
uint64_t wspr_write_word(uint64_t word, uint8_t *frame, size_t frame_len);

typedef void *call(void *result, int refused);

static void *repair(void *result, int refused)
{
    uint8_t frame[FRAME];

    wspr_write_word(1, frame, sizeof frame);
    return wspr_repair(result, frame, sizeof frame, refused ? 13 : 2, 16000);
}

static void *read_telemetry(void *result, int refused)
{
    return u4b_read(result, (const uint8_t *)"QQ2XFT", 6, (const uint8_t *)"GP99", 4, refused ? 1 : 60);
}

/* Before the call one result is all zeros and one all ones: a byte that was written differs in one of them. */
static int is_written(const uint8_t *zeros, const uint8_t *ones, int i)
{
    return i >= 0 && i < ROOM && (zeros[i] != 0 || ones[i] != 0xff);
}

static void show(const char *name, call *made, int refused)
{
    uint8_t zeros[ROOM], ones[ROOM];

    memset(zeros, 0, sizeof zeros);
    memset(ones, 0xff, sizeof ones);
    int returned = made(zeros, refused) == zeros && made(ones, refused) == ones;
    printf("%s, %s: bytes", name, refused ? "refused" : "answered");
    for (int i = 0; i < ROOM; i++) {
        if (is_written(zeros, ones, i) && !is_written(zeros, ones, i - 1))
            printf(" %d", i);
        if (is_written(zeros, ones, i) && !is_written(zeros, ones, i + 1))
            printf(" to %d", i);
    }
    printf("%s\n", returned ? "" : ", not returned");
}

int main(void)
{
    for (int refused = 0; refused < 2; refused++) {
        show("wspr_repair", repair, refused);
        show("u4b_read", read_telemetry, refused);
    }
}

/* Writes a few telemetry reports and reads a few messages through the C interface, and prints what a host sees. */
#include <inttypes.h>
#include <stddef.h>
#include <stdio.h>
#include <string.h>

#include "wsprcard.h"

/* Where the library writes the last number: tests/c/layout.c sees that it writes no further. */
_Static_assert(offsetof(u4b_reading, gps) == 28 && sizeof(u4b_reading) == 32, "layout");

/* Channel, sub-square, metres, tenths of a degree, millivolts, tenths of a knot, GPS. The last six are refused. */
static const struct {
    char first, third, grid5, grid6;
    uint32_t altitude;
    int32_t temperature;
    uint32_t voltage, speed, gps;
} reports[] = {
    {'Q', '2', 'S', 'K', 12340, -150, 4100, 300, 1}, {'1', '7', 'A', 'A', 19, -9, 3000, 19, 0},
    {'1', '7', 'A', 'A', 20, -491, 3050, 20, 0},     {'1', '7', 'A', 'A', 20, -490, 3050, 20, 0},
    {'0', '0', 'X', 'X', 21359, 399, 3999, 839, 1},  {'Q', '2', 'S', 'K', 21360, -150, 4100, 300, 1},
    {'Q', '2', 'S', 'K', 12340, -501, 4100, 300, 1}, {'Q', '2', 'S', 'K', 12340, -150, 2999, 300, 1},
    {'Q', '2', 'Y', 'K', 12340, -150, 4100, 300, 2}, {'q', '2', 'S', 'K', 12340, -150, 4100, 300, 1},
    {'Q', '2', 's', 'k', 12340, -150, 4100, 300, 1},
};

static const struct {
    const char *callsign, *locator;
    uint32_t power;
} messages[] = {
    {"000AAA", "AA00", 3},  {"000AAA", "AA00", 0},  {"0Z0AAI", "RM31", 33}, {"0Z0AAH", "RM31", 40},
    {" K1ABC", "FN20", 37}, {"QQ2XF ", "GP99", 60}, {"QQ2XFT", "GP99", 61}, {"qq2xft", "gp99", 60},
    {"qq2xft", "sp99", 60}, {"0z0aai", "rm31", 33}, {"QQ2XFT", "GP9", 60},
};

static void read_and_print(const uint8_t *callsign, size_t callsign_len, const uint8_t *locator, size_t locator_len,
                           uint32_t power)
{
    u4b_reading r = u4b_read(callsign, callsign_len, locator, locator_len, power);

    if (r.refusal)
        printf("refused %" PRIu32 " place %" PRIu32 "\n", r.refusal, r.place);
    else
        printf("%c%c %c%c %" PRIu32 " m, %" PRId32 " degrees, %" PRIu32 " mV, %" PRIu32 " knots, GPS %" PRIu32 "\n",
               r.first, r.third, r.grid5, r.grid6, r.altitude, r.temperature, r.voltage, r.speed, r.gps);
}

static void write_and_print(size_t i)
{
    uint8_t callsign[6], locator[4];
    wspr_message m = u4b_write(reports[i].first, reports[i].third, reports[i].grid5, reports[i].grid6,
                               reports[i].altitude, reports[i].temperature, reports[i].voltage, reports[i].speed,
                               reports[i].gps, callsign, sizeof callsign, locator, sizeof locator);

    if (m.refusal) {
        printf("refused %" PRIu32 " place %" PRIu32 "\n", m.refusal, m.place);
    } else {
        printf("\"%.6s\" %.4s %" PRIu32 " dBm, read back ", (const char *)callsign, (const char *)locator, m.power);
        read_and_print(callsign, sizeof callsign, locator, sizeof locator, m.power);
    }
}

int main(void)
{
    for (size_t i = 0; i < sizeof reports / sizeof *reports; i++) {
        printf("%c%c %c%c %" PRIu32 " m, %" PRId32 " tenths, %" PRIu32 " mV, %" PRIu32 " tenths, GPS %" PRIu32 ": ",
               reports[i].first, reports[i].third, reports[i].grid5, reports[i].grid6, reports[i].altitude,
               reports[i].temperature, reports[i].voltage, reports[i].speed, reports[i].gps);
        write_and_print(i);
    }
    for (size_t i = 0; i < sizeof messages / sizeof *messages; i++) {
        const char *callsign = messages[i].callsign, *locator = messages[i].locator;

        printf("\"%s\" %s %" PRIu32 " dBm: ", callsign, locator, messages[i].power);
        read_and_print((const uint8_t *)callsign, strlen(callsign), (const uint8_t *)locator, strlen(locator),
                       messages[i].power);
    }
    return 0;
}

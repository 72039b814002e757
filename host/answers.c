/* Prints answers and refusals on standard output, as plain text or as JSON. */
#include "answers.h"

#include <inttypes.h>
#include <stdio.h>
#include <string.h>

/* A reason holds from its place on, up to that of the next one of the same number. None has a semicolon, which
 * separates the parts of a repair. */
static const struct {
    uint32_t number, place;
    form of;
    const char *reason;
} reasons[] = {
    {1, 0, FRAME, "a frame has 162 symbols"},
    {1, 0, MESSAGE, "the line isn't a callsign of up to 6 characters, a locator of 4 and a power"},
    {1, 0, REPORT, "the line isn't a report of 7 fields"},
    {1, 0, CUT_OFF, "the line is cut off before its newline"},
    {2, 0, ANY_FORM, "the callsign's character isn't 0 to 9, A to Z or a space"},
    {2, 1, ANY_FORM, "the callsign's character isn't 0 to 9 or A to Z"},
    {2, 2, ANY_FORM, "the callsign's character isn't 0 to 9"},
    {2, 3, ANY_FORM, "the callsign's character isn't A to Z or a space"},
    {2, 6, ANY_FORM, "the locator's character isn't A to R"},
    {2, 8, ANY_FORM, "the locator's character isn't 0 to 9"},
    {3, 0, ANY_FORM, "the power isn't one of the 19"},
    {4, 0, ANY_FORM, "the callsign's number in the word is 262177560 or more"},
    {5, 0, ANY_FORM, "the locator's number in the word is 32400 or more"},
    {6, 0, ANY_FORM, "the power in the word isn't one of the 19: most often a type 2 or 3 message"},
    {7, 0, ANY_FORM, "the symbol isn't 0 to 3"},
    {8, 0, ANY_FORM, "the symbol's sync bit is wrong"},
    {9, 0, ANY_FORM, "no word has this frame"},
    {10, 0, ANY_FORM, "the first character isn't 0, 1 or Q"},
    {10, 3, ANY_FORM, "a space stands where telemetry has a letter"},
    {11, 0, ANY_FORM, "extended telemetry"},
    {12, 0, ANY_FORM, "the number of sub-square and altitude is 615168 or more"},
    {13, 0, ANY_FORM, "the number of temperature, voltage, speed and GPS is 604800 or more"},
    {14, 0, ANY_FORM, "the channel's first character isn't 0, 1 or Q"},
    {14, 1, ANY_FORM, "the channel's third character isn't 0 to 9"},
    {14, 2, ANY_FORM, "the sub-square's first letter isn't A to X"},
    {14, 3, ANY_FORM, "the sub-square's second letter isn't A to X"},
    {14, 4, ANY_FORM, "the altitude isn't 0 to 21359 metres"},
    {14, 5, ANY_FORM, "the temperature isn't -50.0 to 39.9 degrees"},
    {14, 6, ANY_FORM, "the voltage isn't 3000 to 4999 millivolts"},
    {14, 7, ANY_FORM, "the speed isn't 0 to 83.9 knots"},
    {14, 8, ANY_FORM, "GPS isn't 0 or 1"},
    {15, 0, ANY_FORM, "the limit isn't 0 to 12"},
    {15, 1, ANY_FORM, "the budget isn't 1 to 65536"},
    {16, 0, ANY_FORM, "the live count is above the budget: try a larger one, up to 65536, or a smaller limit"},
    {17, 0, ANY_FORM, "no word is within the limit"},
    {18, 0, ANY_FORM, "two or more words share the fewest disagreements"},
};

static const char *reason_of(refusal r, form of)
{
    const char *reason = "no reason is known"; /* for the refusals of a newer library */

    for (size_t i = 0; i < sizeof reasons / sizeof *reasons; i++)
        if (reasons[i].number == r.number && reasons[i].place <= r.place &&
            (reasons[i].of == ANY_FORM || reasons[i].of == of))
            reason = reasons[i].reason;
    return reason;
}

/* A frame's symbols as digits. */
static void digits_of(const uint8_t *frame, char *digits)
{
    for (size_t i = 0; i < SYMBOLS; i++)
        digits[i] = (char)('0' + frame[i]);
}

static void plain_refused(refusal r, form of)
{
    printf("refused %" PRIu32 " %" PRIu32 ": %s", r.number, r.place, reason_of(r, of));
}

static void plain_message(const message *m)
{
    fwrite(m->callsign, 1, CALLSIGN, stdout);
    putchar(' ');
    fwrite(m->locator, 1, LOCATOR, stdout);
    printf(" %02" PRIu32, m->card.power);
}

/* Message and word aren't shown: the line is to be read as a frame again. */
static void plain_frame(const message *m, uint64_t word, const uint8_t *frame)
{
    char digits[SYMBOLS];

    (void)m;
    (void)word;
    digits_of(frame, digits);
    fwrite(digits, 1, sizeof digits, stdout);
}

static void plain_report(const u4b_reading *r)
{
    printf("%c%c %c%c %" PRIu32 " %" PRId32 " %" PRIu32 " %" PRIu32 " %" PRIu32, r->first, r->third, r->grid5, r->grid6,
           r->altitude, r->temperature, r->voltage, r->speed, r->gps);
}

/* What stands before a string, and the string. It needs no escapes: what is printed are characters that the card
 * accepts, digits, and reasons, none of which has a quote or a backslash. */
static void json_string(const char *before, const void *string, size_t length)
{
    printf("%s\"", before);
    fwrite(string, 1, length, stdout);
    putchar('"');
}

static void json_refused(refusal r, form of)
{
    const char *reason = reason_of(r, of);

    printf("{\"refusal\":%" PRIu32 ",\"place\":%" PRIu32, r.number, r.place);
    json_string(",\"reason\":", reason, strlen(reason));
    putchar('}');
}

/* A message's object without its end, so that more may follow. */
static void json_message_parts(const message *m)
{
    json_string("{\"callsign\":", m->callsign, CALLSIGN);
    json_string(",\"locator\":", m->locator, LOCATOR);
    printf(",\"power\":%" PRIu32, m->card.power);
}

static void json_message(const message *m)
{
    json_message_parts(m);
    putchar('}');
}

static void json_frame(const message *m, uint64_t word, const uint8_t *frame)
{
    char digits[SYMBOLS];

    digits_of(frame, digits);
    json_message_parts(m);
    printf(",\"word\":\"%013" PRIx64 "\"", word);
    json_string(",\"frame\":", digits, sizeof digits);
    putchar('}');
}

static void json_report(const u4b_reading *r)
{
    const uint8_t channel[] = {r->first, r->third}, subsquare[] = {r->grid5, r->grid6};

    json_string("{\"channel\":", channel, sizeof channel);
    json_string(",\"subsquare\":", subsquare, sizeof subsquare);
    printf(",\"altitude\":%" PRIu32 ",\"temperature\":%" PRId32 ",\"voltage\":%" PRIu32 ",\"speed\":%" PRIu32
           ",\"gps\":%" PRIu32 "}",
           r->altitude, r->temperature, r->voltage, r->speed, r->gps);
}

const output plain_output = {
    plain_refused,
    plain_message,
    plain_frame,
    plain_report,
    {"word ", "; message ", "; telemetry ", "; disagreements ", "; live ", "; sync wrong ", "; margin ", ""},
};

const output json_output = {
    json_refused,
    json_message,
    json_frame,
    json_report,
    {"{\"word\":\"", "\",\"message\":", ",\"telemetry\":", ",\"disagreements\":", ",\"live\":", ",\"sync_wrong\":",
     ",\"margin\":", "}"},
};

static void print_telemetry(const output *out, const u4b_reading *telemetry)
{
    fputs(out->repair.telemetry, stdout);
    if (telemetry->refusal)
        out->refused((refusal){telemetry->refusal, telemetry->place}, ANY_FORM);
    else
        out->report(telemetry);
}

void print_repair(const output *out, const wspr_repaired *r, const message *m, const u4b_reading *telemetry)
{
    printf("%s%013" PRIx64 "%s", out->repair.word, r->word, out->repair.message);
    if (m->card.refusal) {
        out->refused((refusal){m->card.refusal, m->card.place}, ANY_FORM);
    } else {
        out->message(m);
        print_telemetry(out, telemetry);
    }
    printf("%s%" PRIu32 "%s%" PRIu32, out->repair.disagreements, r->disagreements, out->repair.live, r->live);
    printf("%s%" PRIu32 "%s%" PRIu32 "%s", out->repair.sync_wrong, r->sync_wrong, out->repair.margin, r->margin,
           out->repair.end);
}

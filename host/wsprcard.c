/* The host program: reads lines from standard input, asks the card and answers each line on standard output. Its
 * manual page is wsprcard.1. */
#include <errno.h>
#include <inttypes.h>
#include <stdbool.h>
#include <stdio.h>
#include <string.h>

#include "answers.h"
#include "lines.h"
#include "options.h"
#include "wsprcard.h"

#define LARGEST_REFUSAL 18
#define REPORT_FIELDS 7

enum { ALL_ANSWERED, SOME_REFUSED, CALLED_WRONGLY, FAILED };

/* A run of a command: what it was called with, how it prints, and what the summary counts. Messages and telemetry are
 * those of repaired words. */
typedef struct {
    const call *call;
    const output *out;
    uint64_t lines, refused, by_number[LARGEST_REFUSAL + 1], messages, telemetry;
} run;

/* What a line is to be, and what answers it or prints nothing and gives the refusal. */
typedef struct {
    form of;
    refusal (*answer)(run *r, const line *l);
} job;

/* A line's message, before the card has seen it. The callsign may stand in `field`. */
typedef struct {
    span callsign, locator;
    uint32_t power;
    uint8_t field[CALLSIGN];
} typed_message;

static const refusal none = {0, 0};

/* The callsign's field of six. In WSPR its third character is always a digit, so that a callsign with its digit in the
 * second place, as K1ABC, stands one place to the right in it. A callsign that is empty or too long stays as it is,
 * for the card to refuse. */
static span callsign_field(span typed, uint8_t field[CALLSIGN])
{
    bool second = typed.length > 1 && is_digit(typed.start[1]);
    bool third = typed.length > 2 && is_digit(typed.start[2]);

    if (typed.length == 0 || typed.length >= CALLSIGN)
        return typed;
    memset(field, ' ', CALLSIGN);
    memcpy(field + (second && !third), typed.start, typed.length);
    return (span){field, CALLSIGN};
}

/* The callsign is all that is left before the locator, so that it may hold spaces. A tab in it separates no fields and
 * stays, for the card to refuse. A line of fewer than three fields has an empty callsign, which the card refuses. */
static void take_message(const line *l, typed_message *m)
{
    span text = text_of_line(l);

    m->power = number_in(take_last_field(&text));
    m->locator = take_last_field(&text);
    m->callsign = callsign_field(text, m->field);
}

/* A line's symbols, as many as it has characters. What isn't a digit is above 3. */
static void take_frame(const line *l, uint8_t *frame)
{
    for (size_t i = 0; i < l->length; i++)
        frame[i] = is_digit(l->bytes[i]) ? (uint8_t)(l->bytes[i] - '0') : UINT8_MAX;
}

/* One of a field's two characters, or zero, which the card refuses, where there aren't two. */
static uint8_t one_of_two(span field, size_t place)
{
    return field.length == 2 ? field.start[place] : 0;
}

/* Whether the line is a report's fields and nothing more. */
static bool take_report(const line *l, span field[REPORT_FIELDS])
{
    span text = text_of_line(l);

    for (size_t i = REPORT_FIELDS; i > 0; i--)
        field[i - 1] = take_last_field(&text);
    return field[0].length > 0 && text.length == 0;
}

/* What is shown of the message is what the card says of its word, not what was typed. Only packing refuses: what was
 * packed reads back, and every word has a frame. */
static refusal answer_encode(run *r, const line *l)
{
    uint8_t frame[SYMBOLS];
    typed_message typed;
    message m;
    wspr_word w;

    take_message(l, &typed);
    w = wspr_pack(typed.callsign.start, typed.callsign.length, typed.locator.start, typed.locator.length, typed.power);
    if (w.refusal)
        return (refusal){w.refusal, w.place};
    m.card = wspr_unpack(w.word, m.callsign, CALLSIGN, m.locator, LOCATOR);
    wspr_write_word(w.word, frame, SYMBOLS);
    r->out->frame(&m, w.word, frame);
    return none;
}

static refusal answer_read(run *r, const line *l)
{
    uint8_t frame[sizeof l->bytes];
    message m;

    take_frame(l, frame);
    m.card = wspr_read_message(frame, l->length, m.callsign, CALLSIGN, m.locator, LOCATOR);
    if (m.card.refusal)
        return (refusal){m.card.refusal, m.card.place};
    r->out->message(&m);
    return none;
}

static refusal answer_repair(run *r, const line *l)
{
    uint8_t frame[sizeof l->bytes];
    u4b_reading telemetry = {0};
    wspr_repaired repaired;
    message m;

    take_frame(l, frame);
    repaired = wspr_repair(frame, l->length, r->call->option[LIMIT], r->call->option[BUDGET]);
    if (repaired.refusal)
        return (refusal){repaired.refusal, repaired.place};
    m.card = wspr_unpack(repaired.word, m.callsign, CALLSIGN, m.locator, LOCATOR);
    if (!m.card.refusal) {
        telemetry = u4b_read(m.callsign, CALLSIGN, m.locator, LOCATOR, m.card.power);
        r->messages++;
        r->telemetry += !telemetry.refusal;
    }
    print_repair(r->out, &repaired, &m, &telemetry);
    return none;
}

static refusal answer_telemetry(run *r, const line *l)
{
    typed_message m;
    u4b_reading report;

    take_message(l, &m);
    report = u4b_read(m.callsign.start, m.callsign.length, m.locator.start, m.locator.length, m.power);
    if (report.refusal)
        return (refusal){report.refusal, report.place};
    r->out->report(&report);
    return none;
}

static refusal answer_report(run *r, const line *l)
{
    span f[REPORT_FIELDS];
    message m;

    if (!take_report(l, f))
        return (refusal){1, 0};
    m.card = u4b_write(one_of_two(f[0], 0), one_of_two(f[0], 1), one_of_two(f[1], 0), one_of_two(f[1], 1),
                       number_in(f[2]), signed_tenths_in(f[3]), number_in(f[4]), tenths_in(f[5]), number_in(f[6]),
                       m.callsign, CALLSIGN, m.locator, LOCATOR);
    if (m.card.refusal)
        return (refusal){m.card.refusal, m.card.place};
    r->out->message(&m);
    return none;
}

/* Those of each command, without --write and with it. */
static const job jobs[COMMANDS][2] = {
    [ENCODE] = {{MESSAGE, answer_encode}},
    [READ] = {{FRAME, answer_read}},
    [REPAIR] = {{FRAME, answer_repair}},
    [TELEMETRY] = {{MESSAGE, answer_telemetry}, {REPORT, answer_report}},
};

/* A number that isn't in the card's table is counted as 0. */
static void count_line(run *r, refusal refused)
{
    r->lines++;
    if (refused.number) {
        r->refused++;
        r->by_number[refused.number <= LARGEST_REFUSAL ? refused.number : 0]++;
    }
}

static void print_summary(const run *r)
{
    const char *before = " (";

    fprintf(stderr, "wsprcard %s: %" PRIu64 " lines, %" PRIu64 " answered, %" PRIu64 " refused", r->call->name,
            r->lines, r->lines - r->refused, r->refused);
    for (size_t i = 0; i <= LARGEST_REFUSAL; i++) {
        if (r->by_number[i]) {
            fprintf(stderr, "%s%zu: %" PRIu64, before, i, r->by_number[i]);
            before = ", ";
        }
    }
    if (r->refused)
        fputc(')', stderr);
    if (r->call->command == REPAIR)
        fprintf(stderr, "; %" PRIu64 " messages, %" PRIu64 " telemetry", r->messages, r->telemetry);
    fputc('\n', stderr);
}

static int failed(const char *what)
{
    fprintf(stderr, "wsprcard: %s: %s\n", what, strerror(errno));
    return FAILED;
}

/* A reader at the other end of a pipe is to see each answer at once. */
static int send_output(void)
{
    return fflush(stdout) == 0 && !ferror(stdout) ? ALL_ANSWERED : failed("the output can't be written");
}

/* What is left of a line that is cut off may pass for another message or report: the card isn't asked. What is left of
 * a frame is too short, and the card refuses it. */
static refusal answer_line(run *r, const job *j, const line *l)
{
    bool cut = l->cut_off && j->of != FRAME;
    refusal refused = cut ? (refusal){1, 0} : j->answer(r, l);

    if (refused.number)
        r->out->refused(refused, cut ? CUT_OFF : j->of);
    putchar('\n');
    return refused;
}

static int answer_lines(const call *c)
{
    const job *j = &jobs[c->command][c->option[WRITE]];
    run r = {.call = c, .out = c->option[JSON] ? &json_output : &plain_output};
    line l;

    while (read_line(stdin, &l)) {
        count_line(&r, answer_line(&r, j, &l));
        if (send_output() == FAILED)
            return FAILED;
    }
    if (ferror(stdin))
        return failed("the input can't be read");
    print_summary(&r);
    return r.refused ? SOME_REFUSED : ALL_ANSWERED;
}

int main(int argc, char **argv)
{
    call c;

    /* Each line goes out whole: in a pipe the summaries of two commands don't mix. */
    setvbuf(stderr, NULL, _IOLBF, BUFSIZ);
    switch (read_arguments(argc > 0 ? argv + 1 : argv, &c)) {
    case RUN:
        return answer_lines(&c);
    case SHOWN:
        return send_output();
    default:
        return CALLED_WRONGLY;
    }
}

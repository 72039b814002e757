/* Reads the program's arguments, and shows help, version and usage. */
#include "options.h"

#include <stdbool.h>
#include <stdio.h>
#include <string.h>

#include "lines.h"

#define VERSION "wsprcard 1.0\n"

/* A wrong argument is shown up to this length. */
#define SHOWN_LENGTH 40

/* At the usual limit and budget repair gives back every word whose frame has at most four flipped data bits. */
#define USUAL_LIMIT 4
#define USUAL_BUDGET 65536

#define BIT(option) (1u << (option))

static const struct {
    const char *name;
    bool takes_number;
    uint32_t unless_given;
    const char *help;
} options[OPTIONS] = {
    [LIMIT] = {"--limit", true, USUAL_LIMIT,
               "  --limit N   the most disagreements that a repaired word may have,\n"
               "              0 to 12; 4 unless given\n"},
    [BUDGET] = {"--budget", true, USUAL_BUDGET,
                "  --budget N  the largest live count that is searched through,\n"
                "              1 to 65536; 65536 unless given\n"},
    [WRITE] = {"--write", false, 0, "  --write     a report to its message\n"},
    [JSON] = {"--json", false, 0, "  --json      one JSON object a line instead of plain text\n"},
};

#define MESSAGE_HELP \
    "A message is callsign, locator and power in dBm, as K1ABC FN20 37.\n"
#define TYPED_HELP \
    "Typed, it may have small letters, and tabs between its fields.\n"
#define FRAME_HELP \
    "A frame is 162 digits 0 to 3, the symbols in the order in which they are sent.\n"
#define REPAIR_HELP \
    "The answer is the word, its message, the message's telemetry, the disagreements,\n" \
    "the live count, the number of wrong sync bits and the margin: how many more\n" \
    "disagreements the next nearest word has. Where no other word is within the\n" \
    "limit, the next is taken to have limit + 1.\n"
#define COUNTS_HELP \
    "\n" \
    "The live count of a clean frame, in which no data bit is flipped, by limit;\n" \
    "proved up to limit 10:\n" \
    "\n" \
    "  limit  0  1   2   3   4    5    6    7     8     9    10     11     12\n" \
    "  live  81 81 131 279 569 1573 3495 7611 17851 42557 97265 222823 514948\n" \
    "\n" \
    "A budget below the live count refuses even a clean frame (16): with a budget of\n" \
    "65536, the largest, a clean frame is answered at limits up to 9, and at limits\n" \
    "10 to 12 with none. So use limits up to 9. No frame, whatever was received, has\n" \
    "a live count above that of a clean frame at twice the limit: so a budget of 569\n" \
    "is enough for every frame at limit 2, and one of 17851 at limit 4. This is\n" \
    "proved; at limits from 5 on no budget is proved to be enough for every frame.\n" \
    "\n" \
    "At limit 2 the live count of a clean frame is 131, and that of a frame with one\n" \
    "flipped data bit at most 135, reached exactly where the data bit of symbol 105,\n" \
    "counted from 0, is the flipped one. So a budget of 131 always gives the word of a\n" \
    "clean frame back, and one of 135 that of a frame with one flipped data bit, too.\n" \
    "This is proved for every word.\n" \
    "\n" \
    "The frames of two words differ in at least 28 data bits. So at limit 4 and\n" \
    "budget 65536, as they are unless given, a word comes back where at most 4 data\n" \
    "bits of its frame were flipped, and no word is given where 5 to 23 were (17). A\n" \
    "word that isn't the one that was sent takes at least 28 flipped data bits less\n" \
    "the limit: 24 at limit 4, and 26 at limit 2. This is proved for every word.\n"
#define REPORT_HELP \
    "A report is channel, sub-square, metres, degrees, millivolts, knots and GPS,\n" \
    "as Q2 SK 12340 -15 4100 30 1. Its letters are capitals, and tabs may stand between\n" \
    "its fields. With --write, readings are rounded down to steps of 20 metres,\n" \
    "1 degree, 50 millivolts and 2 knots.\n"

/* Of its two helps one stands before the options and one behind them. */
static const struct {
    const char *name, *takes, *does, *help, *last_help;
    unsigned options;
} commands[COMMANDS] = {
    [ENCODE] = {"encode", "[--json]", "a message to its frame", MESSAGE_HELP TYPED_HELP FRAME_HELP, "",
                BIT(JSON)},
    [READ] = {"read", "[--json]", "a frame to its message, strictly: nothing is repaired", FRAME_HELP MESSAGE_HELP, "",
              BIT(JSON)},
    [REPAIR] = {"repair", "[--limit N] [--budget N] [--json]",
                "a frame, damaged or not, to the one word that is nearest to it", FRAME_HELP REPAIR_HELP, COUNTS_HELP,
                BIT(LIMIT) | BIT(BUDGET) | BIT(JSON)},
    [TELEMETRY] = {"telemetry", "[--write] [--json]", "a message to the report in it; with --write the other way",
                   MESSAGE_HELP TYPED_HELP REPORT_HELP, "", BIT(WRITE) | BIT(JSON)},
};

/* The usage of a command, or of the program for COMMANDS. */
static void print_usage(FILE *to, command which)
{
    const char *before = "usage:";

    for (command i = 0; i < COMMANDS; i++) {
        if (which == i || which == COMMANDS) {
            fprintf(to, "%-6s wsprcard %s %s\n", before, commands[i].name, commands[i].takes);
            before = "";
        }
    }
    if (which == COMMANDS)
        fputs("       wsprcard [command] --help\n"
              "       wsprcard --version\n",
              to);
}

static void print_program_help(void)
{
    print_usage(stdout, COMMANDS);
    fputs("\n"
          "Writes, reads and repairs WSPR frames, and U4B telemetry in them. Each command\n"
          "reads lines from standard input and answers each by one line on standard output.\n"
          "\n",
          stdout);
    for (command i = 0; i < COMMANDS; i++)
        printf("  %-9s  %s\n", commands[i].name, commands[i].does);
    fputs("\nThe manual page wsprcard(1) says all of it.\n", stdout);
}

static void print_command_help(command which)
{
    print_usage(stdout, which);
    printf("\nFor each line: %s.\n%s\n", commands[which].does, commands[which].help);
    for (unsigned i = 0; i < OPTIONS; i++)
        if (commands[which].options & BIT(i))
            fputs(options[i].help, stdout);
    printf("  --help      this text; nothing is read\n%s", commands[which].last_help);
}

/* A wrong argument as one short piece of a sentence, whatever its bytes are. */
static void print_argument(const char *argument)
{
    fputc('\'', stderr);
    for (size_t i = 0; argument[i] && i < SHOWN_LENGTH; i++)
        fputc(argument[i] < ' ' || argument[i] > '~' ? '?' : argument[i], stderr);
    fputs(strlen(argument) > SHOWN_LENGTH ? "...'" : "'", stderr);
}

/* Complaints begin with the argument, where there is one. */
static outcome wrong(command which, const char *argument, const char *complaint)
{
    fprintf(stderr, "wsprcard%s%s: ", which == COMMANDS ? "" : " ", which == COMMANDS ? "" : commands[which].name);
    if (argument)
        print_argument(argument);
    fprintf(stderr, "%s.\n", complaint);
    print_usage(stderr, which);
    return WRONG;
}

static command find_command(const char *name)
{
    command which = 0;

    while (which < COMMANDS && strcmp(commands[which].name, name) != 0)
        which++;
    return which;
}

/* Whether the argument is this option. What stands behind an equals sign is its value. */
static bool is_option(unsigned option, const char *argument, const char **value)
{
    size_t length = strlen(options[option].name);

    *value = NULL;
    if (strncmp(argument, options[option].name, length) != 0)
        return false;
    if (argument[length] == '=' && options[option].takes_number)
        *value = argument + length + 1;
    return *value || argument[length] == '\0';
}

/* The option that the argument is, if the command has it; else OPTIONS. */
static unsigned find_option(command which, const char *argument, const char **value)
{
    unsigned option = 0;

    while (option < OPTIONS && !(commands[which].options & BIT(option) && is_option(option, argument, value)))
        option++;
    return option;
}

static bool read_value(const char *value, uint32_t *number)
{
    return value && read_number((span){(const uint8_t *)value, strlen(value)}, number);
}

static outcome read_options(char **arguments, call *c)
{
    while (*arguments) {
        const char *argument = *arguments++, *value;
        unsigned option = find_option(c->command, argument, &value);

        if (option == OPTIONS)
            return wrong(c->command, argument, " isn't an option of this command");
        c->option[option] = 1;
        if (options[option].takes_number && !value && *arguments)
            value = *arguments++;
        if (options[option].takes_number && !read_value(value, &c->option[option]))
            return wrong(c->command, options[option].name, " needs a number");
    }
    return RUN;
}

static bool among(char **arguments, const char *wanted)
{
    while (*arguments && strcmp(*arguments, wanted) != 0)
        arguments++;
    return *arguments != NULL;
}

static void set_command(command which, call *c)
{
    c->command = which;
    c->name = commands[which].name;
    for (unsigned i = 0; i < OPTIONS; i++)
        c->option[i] = options[i].unless_given;
}

outcome read_arguments(char **arguments, call *c)
{
    const char *first = *arguments;
    command which;

    if (!first)
        return wrong(COMMANDS, NULL, "a command is missing");
    if (strcmp(first, "--help") == 0) {
        print_program_help();
        return SHOWN;
    }
    if (strcmp(first, "--version") == 0 && !arguments[1]) {
        fputs(VERSION, stdout);
        return SHOWN;
    }
    which = find_command(first);
    if (which == COMMANDS)
        return wrong(which, first, strcmp(first, "--version") == 0 ? " stands alone" : " isn't a command");
    if (among(arguments, "--help")) {
        print_command_help(which);
        return SHOWN;
    }
    set_command(which, c);
    return read_options(arguments + 1, c);
}

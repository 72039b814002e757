/* Prints so many bytes of noise of a kind from a seeded generator: noise KIND BYTES SEED. */
#include <stdio.h>
#include <stdlib.h>
#include <string.h>

#include "generator.h"

enum { FRAME_LEN = 162 };

static int any_byte(struct generator *g)
{
    return (int)draw_below(g, 256);
}

static int nul(struct generator *g)
{
    (void)g;
    return 0;
}

/* Any byte but a newline: all of it is one line. */
static int no_newline(struct generator *g)
{
    int byte = (int)draw_below(g, 255);

    return byte < '\n' ? byte : byte + 1;
}

/* Digits 0 to 3 in lines of any length; half of the lines are as long as a frame. */
static int digit(struct generator *g)
{
    static uint64_t left = FRAME_LEN;

    if (left-- > 0)
        return '0' + (int)draw_below(g, 4);
    left = draw_once_in(g, 2) ? FRAME_LEN : draw_below(g, 3 * FRAME_LEN);
    return '\n';
}

/* The characters that lines of messages and reports are made of, in short lines. */
static int field_byte(struct generator *g)
{
    static const char bytes[] = "0123456789ABCDEFGHIJKLMNOPQRSTUVWXYZabcfgknpqrsxz      \t\t01Q0000-+..\r\n\n\n\n\n";

    return (unsigned char)bytes[draw_below(g, sizeof bytes - 1)];
}

static const struct {
    const char *name;
    int (*next)(struct generator *g);
} kinds[] = {
    {"bytes", any_byte}, {"digits", digit}, {"line", no_newline}, {"nuls", nul}, {"fields", field_byte},
};

static void print_noise(int (*next)(struct generator *g), unsigned long count, uint64_t seed)
{
    struct generator g = {seed};

    for (unsigned long i = 0; i < count; i++)
        putchar(next(&g));
}

int main(int argc, char **argv)
{
    size_t kind = 0, known = sizeof kinds / sizeof *kinds;

    while (argc == 4 && kind < known && strcmp(kinds[kind].name, argv[1]) != 0)
        kind++;
    if (argc != 4 || kind == known) {
        fputs("usage: noise bytes|digits|line|nuls|fields BYTES SEED\n", stderr);
        return 2;
    }
    print_noise(kinds[kind].next, strtoul(argv[2], NULL, 10), strtoull(argv[3], NULL, 10));
    return fflush(stdout) == 0 ? 0 : 1;
}

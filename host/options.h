/* Reads the program's arguments, and shows help, version and usage. */
#ifndef OPTIONS_H
#define OPTIONS_H

#include <stdint.h>

typedef enum { ENCODE, READ, REPAIR, TELEMETRY, COMMANDS } command;

enum { LIMIT, BUDGET, WRITE, JSON, OPTIONS };

/* A command, its name, and the number of each option: of those that take none, 1 where they are given, else 0. */
typedef struct {
    command command;
    const char *name;
    uint32_t option[OPTIONS];
} call;

/* What is to be done: run the command, or end, after help or version was shown or after a complaint. */
typedef enum { RUN, SHOWN, WRONG } outcome;

/* Reads the arguments after the program's name, up to NULL. */
outcome read_arguments(char **arguments, call *c);

#endif

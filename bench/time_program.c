/* Times whole runs of programs side by side: us a run, from its start until it has ended.
 *
 *   time_program RUNS [-- NAME INPUT PROGRAM ARGUMENT...]...
 *
 * Each is run so many times, in turn with the others. Its standard input is the file INPUT, and what it prints is
 * dropped. A program that ends with a status above 1 or by a signal ends this one with 1: wsprsim's status is 1 where
 * all went well. */
#define _POSIX_C_SOURCE 200809L
#include <fcntl.h>
#include <spawn.h>
#include <stdio.h>
#include <stdlib.h>
#include <string.h>
#include <sys/wait.h>

#include "spread.h"

#define MOST_PROGRAMS 16

extern char **environ;

static struct timed {
    char **words; /* NAME INPUT PROGRAM ARGUMENT... and NULL */
    double times[MOST_TIMES];
} programs[MOST_PROGRAMS];

static void fail(const char *name, const char *what)
{
    fprintf(stderr, "%s %s\n", name, what);
    exit(1);
}

static double time_run(const struct timed *p, const posix_spawn_file_actions_t *files)
{
    struct timespec start, end;
    pid_t child;
    int status;

    clock_gettime(CLOCK_MONOTONIC, &start);
    if (posix_spawnp(&child, p->words[2], files, NULL, p->words + 2, environ))
        fail(p->words[0], "can't be started");
    waitpid(child, &status, 0);
    clock_gettime(CLOCK_MONOTONIC, &end);
    if (!WIFEXITED(status) || WEXITSTATUS(status) > 1)
        fail(p->words[0], "failed");
    return ns_between(start, end) / 1000;
}

static double run_program(const struct timed *p)
{
    posix_spawn_file_actions_t files;
    double us;

    posix_spawn_file_actions_init(&files);
    posix_spawn_file_actions_addopen(&files, 0, p->words[1], O_RDONLY, 0);
    posix_spawn_file_actions_addopen(&files, 1, "/dev/null", O_WRONLY, 0);
    posix_spawn_file_actions_addopen(&files, 2, "/dev/null", O_WRONLY, 0);
    us = time_run(p, &files);
    posix_spawn_file_actions_destroy(&files);
    return us;
}

/* Cuts the arguments at each "--", and returns how many programs they name. */
static size_t find_programs(int argc, char **argv)
{
    size_t count = 0;

    for (int i = 2; i < argc; i++) {
        if (strcmp(argv[i], "--"))
            continue;
        if (count == MOST_PROGRAMS || i + 3 >= argc)
            fail("time_program", "has too many programs, or too few words for one");
        argv[i] = NULL;
        programs[count++].words = argv + i + 1;
    }
    return count;
}

static void print_row(const struct timed *p, size_t runs)
{
    printf("%-46s", p->words[0]);
    print_times(p->times, runs);
    printf("\n");
}

int main(int argc, char **argv)
{
    size_t runs = argc > 1 ? strtoul(argv[1], NULL, 10) : 0, count = find_programs(argc, argv);

    if (runs == 0 || runs > MOST_TIMES)
        fail("time_program", "takes 1 to 1000 runs");
    for (size_t i = 0; i < runs * count; i++)
        programs[i % count].times[i / count] = run_program(&programs[i % count]);
    for (size_t i = 0; i < count; i++)
        print_row(&programs[i], runs);
    return 0;
}

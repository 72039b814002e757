/* Times of rounds, and what is printed of them. */
#ifndef SPREAD_H
#define SPREAD_H

#include <stddef.h>
#include <time.h>

#define MOST_TIMES 1000

/* How many ns lie between two times of a clock. */
double ns_between(struct timespec start, struct timespec end);

/* Sorts them, and returns their median. */
double sort_to_median(double *numbers, size_t count);

/* Prints the median of at most MOST_TIMES, and half the distance of their quartiles in percent of it. */
void print_times(const double *times, size_t count);

#endif

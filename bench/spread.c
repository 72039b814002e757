/* Times of rounds, and what is printed of them. */
#include "spread.h"

#include <stdio.h>
#include <stdlib.h>
#include <string.h>

double ns_between(struct timespec start, struct timespec end)
{
    return (double)(end.tv_sec - start.tv_sec) * 1e9 + (double)(end.tv_nsec - start.tv_nsec);
}

static int by_size(const void *a, const void *b)
{
    double x = *(const double *)a, y = *(const double *)b;

    return (x > y) - (x < y);
}

double sort_to_median(double *numbers, size_t count)
{
    qsort(numbers, count, sizeof *numbers, by_size);
    return numbers[count / 2];
}

void print_times(const double *times, size_t count)
{
    double sorted[MOST_TIMES], median;

    memcpy(sorted, times, count * sizeof *times);
    median = sort_to_median(sorted, count);
    printf(" %10.1f %4.1f%%", median, 50 * (sorted[count * 3 / 4] - sorted[count / 4]) / median);
}

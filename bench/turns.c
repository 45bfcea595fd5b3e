#define _POSIX_C_SOURCE 199309L

#include "turns.h"

#include <stdio.h>
#include <stdlib.h>
#include <string.h>
#include <time.h>

double now_ns(void)
{
    struct timespec t;
    clock_gettime(CLOCK_MONOTONIC, &t);
    return (double)t.tv_sec * 1e9 + (double)t.tv_nsec;
}

static int by_size(const void *a, const void *b)
{
    double x = *(const double *)a, y = *(const double *)b;
    return (x > y) - (x < y);
}

static double median(double *values)
{
    qsort(values, ROUNDS, sizeof values[0], by_size);
    return values[ROUNDS / 2];
}

bool no_best(size_t row)
{
    (void)row;
    return false;
}

bool asked_for_times(int count, char **given)
{
    if (count > 1 && strcmp(given[1], "time") == 0) {
        return true;
    }
    if (count > 1 && strcmp(given[1], "same") == 0) {
        return false;
    }
    fprintf(stderr, "bench: the first word is time or same\n");
    exit(2);
}

/* Ours, plain and, where it takes part, best. */
static int sides(const struct contest *contest, size_t row)
{
    return contest->has_best(row) ? WHO_COUNT : BEST;
}

static unsigned passes_for(const struct contest *contest, size_t row)
{
    unsigned passes = 1;
    contest->prepare(row);
    for (int who = 0; who < sides(contest, row); who++) {
        while (contest->turn(row, (enum who)who, passes) < TURN_NS) {
            passes *= 2;
        }
    }
    return passes;
}

/* Every row has a turn in every round, so that a busy spell of the machine
 * falls on all of them. Who goes first changes from round to round. */
void compete(const struct contest *contest)
{
    static double spent[ROWS_MAX][WHO_COUNT][ROUNDS];
    static unsigned passes[ROWS_MAX];
    for (size_t row = 0; row < contest->rows; row++) {
        passes[row] = passes_for(contest, row);
    }
    for (int round = 0; round < ROUNDS; round++) {
        for (size_t row = 0; row < contest->rows; row++) {
            int count = sides(contest, row);
            contest->prepare(row);
            for (int i = 0; i < count; i++) {
                enum who who = (enum who)((round + i) % count);
                spent[row][who][round] = contest->turn(row, who, passes[row]);
            }
        }
    }
    for (size_t row = 0; row < contest->rows; row++) {
        double units = (double)passes[row] * contest->unit;
        printf("%s|%.3f|%.3f|", contest->name(row),
               median(spent[row][OURS]) / units,
               median(spent[row][PLAIN]) / units);
        if (contest->has_best(row)) {
            printf("%.3f\n", median(spent[row][BEST]) / units);
        } else {
            printf("-\n");
        }
    }
}

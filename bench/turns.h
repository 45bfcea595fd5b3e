/* Ours and plain C in turns at the clock: what the benchmarks share. A machine
 * is never quite still, so no single turn is trusted: a time is the median of
 * many rounds. */
#ifndef TURNS_H
#define TURNS_H

#include <stdbool.h>
#include <stddef.h>

#define ROUNDS 51
#define ROWS_MAX 32
/* The shortest turn at the clock: a coarse clock or one interrupt must not
 * weigh much in it. */
#define TURN_NS 1e6

enum who { OURS, PLAIN, BEST, WHO_COUNT };

/* What is measured: so many rows, each with a name, and whether BEST takes part
 * in it. A row is prepared before each of its turns; a turn makes a number of
 * passes and tells the nanoseconds. Those of a pass, divided by unit, are the
 * row's time. */
struct contest {
    size_t rows;
    double unit;
    const char *(*name)(size_t row);
    bool (*has_best)(size_t row);
    void (*prepare)(size_t row);
    double (*turn)(size_t row, enum who who, unsigned passes);
};

/* Measures, and prints a line a row: what, ours, plain, and best or a dash. */
void compete(const struct contest *contest);

/* For rows of two. */
bool no_best(size_t row);

/* A program's first word: "time", or "same", with which it holds ours against
 * plain C and measures nothing. */
bool asked_for_times(int count, char **given);

double now_ns(void);

#endif

/*
 * Whole runs of the bench program and of the plain one, from start to exit,
 * with what they print read from a pipe:
 *
 *     whole time|same OURS PLAIN EMPTY WORST FIELD..
 *
 * Measured are a field of 64 random UIDs, the field WORST, and the program
 * EMPTY, which does nothing, beside itself. On the two fields and on all other
 * ones both must first print the same. The script run makes a table of what is
 * printed here.
 */
#define _POSIX_C_SOURCE 200112L

#include <fcntl.h>
#include <inttypes.h>
#include <spawn.h>
#include <stdbool.h>
#include <stdio.h>
#include <stdlib.h>
#include <string.h>
#include <sys/wait.h>
#include <unistd.h>

#include "turns.h"

#define CARDS 64
#define PRINTED_MAX 4096
#define US 1e3

struct row {
    const char *name;
    const char *program[BEST];
    int field;
};

enum { RANDOM, WORST, EMPTY, ROW_COUNT };

static struct row rows[ROW_COUNT];

/* What a run printed. */
struct printed {
    char bytes[PRINTED_MAX];
    size_t length;
};

static void must(bool holds, const char *what)
{
    if (!holds) {
        fprintf(stderr, "bench: %s\n", what);
        exit(1);
    }
}

/* Starts a program on a field. Returns the end of a pipe with what it prints. */
static int start(const char *program, int field, pid_t *child)
{
    char *const arguments[] = {(char *)program, NULL};
    char *const environment[] = {NULL};
    posix_spawn_file_actions_t actions;
    int ends[2];
    must(lseek(field, 0, SEEK_SET) == 0 && pipe(ends) == 0, "no pipe");
    posix_spawn_file_actions_init(&actions);
    posix_spawn_file_actions_adddup2(&actions, field, STDIN_FILENO);
    posix_spawn_file_actions_adddup2(&actions, ends[1], STDOUT_FILENO);
    posix_spawn_file_actions_addclose(&actions, ends[0]);
    posix_spawn_file_actions_addclose(&actions, ends[1]);
    must(posix_spawn(child, program, &actions, NULL, arguments, environment) ==
             0,
         "a program does not start");
    posix_spawn_file_actions_destroy(&actions);
    close(ends[1]);
    return ends[0];
}

static void run(const char *program, int field, struct printed *printed)
{
    pid_t child;
    int status, end = start(program, field, &child);
    ssize_t n;
    printed->length = 0;
    while ((n = read(end, printed->bytes + printed->length,
                     PRINTED_MAX - printed->length)) > 0) {
        printed->length += (size_t)n;
    }
    close(end);
    must(waitpid(child, &status, 0) == child && WIFEXITED(status) &&
             WEXITSTATUS(status) == 0,
         "a program fails");
}

static void must_print_same(int field, const char *name)
{
    struct printed ours, plain;
    run(rows[WORST].program[OURS], field, &ours);
    run(rows[WORST].program[PLAIN], field, &plain);
    if (ours.length == 0 || ours.length != plain.length ||
        memcmp(ours.bytes, plain.bytes, ours.length) != 0) {
        fprintf(stderr, "bench: ours and plain print other things: %s\n", name);
        exit(1);
    }
}

/* UIDs without order, the same in every run. */
static int random_field(void)
{
    FILE *file = tmpfile();
    uint64_t x = 15693;
    must(file != NULL, "no temporary file");
    for (int i = 0; i < CARDS; i++) {
        x ^= x << 13;
        x ^= x >> 7;
        x ^= x << 17;
        fprintf(file, "E0%014" PRIX64 "\n", x >> 8);
    }
    must(fflush(file) == 0, "no temporary file");
    return fileno(file);
}

static int stored_field(const char *path)
{
    int file = open(path, O_RDONLY);
    must(file >= 0, path);
    return file;
}

static const char *name(size_t row)
{
    return rows[row].name;
}

static void prepare(size_t row)
{
    (void)row;
}

/* A pass is a run. */
static double turn(size_t row, enum who who, unsigned passes)
{
    struct printed printed;
    double started = now_ns();
    for (unsigned pass = 0; pass < passes; pass++) {
        run(rows[row].program[who], rows[row].field, &printed);
    }
    return now_ns() - started;
}

int main(int count, char **given)
{
    bool timed = asked_for_times(count, given);
    must(count >= 6, "usage: whole time|same OURS PLAIN EMPTY WORST FIELD..");
    const char *ours = given[2], *plain = given[3], *empty = given[4];
    int random = random_field(), worst = stored_field(given[5]);
    rows[RANDOM] = (struct row){"64 random UIDs", {ours, plain}, random};
    rows[WORST] = (struct row){"worst field of 64", {ours, plain}, worst};
    rows[EMPTY] = (struct row){"empty program", {empty, empty}, worst};
    must_print_same(random, rows[RANDOM].name);
    for (int i = 5; i < count; i++) {
        int field = stored_field(given[i]);
        must_print_same(field, given[i]);
        close(field);
    }
    if (timed) {
        compete(&(struct contest){ROW_COUNT, US, name, no_best, prepare, turn});
    }
    return 0;
}

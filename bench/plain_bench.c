/*
 * The form of the library's bench program in plain C: lines to UIDs, a row of
 * cards, the walk slot after slot over the whole row, and what is printed in
 * one write. Every card hears what the walk sends by its own events and makes
 * all of its tests, the check of a request included. Cards, walk and check are
 * those of the other plain files.
 */
#include <stdio.h>
#include <string.h>
#include <unistd.h>

#include "espenknoten.h"
#include "plain_card.h"
#include "plain_walk.h"

#define INPUT_MAX 4096
#define CARDS_MAX 100
#define DIGITS 16
/* The first byte of every UID. */
#define FIRST 0xE0
#define PRINTED_MAX 1200

/* ---- input */

static size_t read_all(int file, uint8_t *bytes, size_t room)
{
    size_t length = 0;
    ssize_t n;
    while (length < room &&
           (n = read(file, bytes + length, room - length)) > 0) {
        length += (size_t)n;
    }
    return length;
}

/* The value of an upper-case hex digit, or 16. */
static unsigned digit_of(uint8_t byte)
{
    if (byte >= '0' && byte <= '9') {
        return byte - '0';
    }
    return byte >= 'A' && byte <= 'F' ? byte - 'A' + 10u : 16;
}

static bool read_uid(const uint8_t *line, size_t length, uint64_t *uid)
{
    *uid = 0;
    if (length != DIGITS) {
        return false;
    }
    for (size_t i = 0; i < DIGITS; i++) {
        unsigned digit = digit_of(line[i]);
        if (digit == 16) {
            return false;
        }
        *uid = *uid << 4 | digit;
    }
    return *uid >> 56 == FIRST;
}

static void new_card(struct card *card, uint64_t uid)
{
    memset(card, 0, sizeof *card);
    card->uid = uid;
    card->blocks = card->size = 1;
}

/* A card for each line. Returns the number of the first wrong line, or 0. */
static size_t read_row(const uint8_t *input, size_t length, struct card *row,
                       size_t *count)
{
    const uint8_t *line = input, *end = input + length;
    uint64_t uid;
    *count = 0;
    while (line < end) {
        const uint8_t *stop = memchr(line, '\n', (size_t)(end - line));
        stop = stop == NULL ? end : stop;
        if (*count == CARDS_MAX ||
            !read_uid(line, (size_t)(stop - line), &uid)) {
            return *count + 1;
        }
        new_card(&row[(*count)++], uid);
        line = stop + 1;
    }
    return 0;
}

/* ---- the walk over the row */

/* What is sent reaches every card. Returns how many answer, 2 or more also for
 * one that is no inventory answer, and the last that did. */
static unsigned call(struct card *row, size_t count, const uint8_t *request,
                     int64_t send, const struct card **answering)
{
    unsigned answers = 0;
    for (size_t i = 0; i < count; i++) {
        enum reply reply =
            send == EK_SEND_MARK
                ? plain_hear_mark(&row[i])
                : plain_hear_inventory(&row[i], request, (size_t)send);
        if (reply == PRESENT) {
            answers++;
            *answering = &row[i];
        } else if (reply != SILENCE) {
            answers += 2;
        }
    }
    return answers;
}

static void play(struct card *row, size_t count, struct ek_walk *walk,
                 uint64_t *list)
{
    uint8_t request[EK_REQUEST_MAX], answer[PLAIN_ANSWER];
    const struct card *card = NULL;
    int64_t send;
    plain_walk_start(walk, EK_WALK_NO_FAMILY);
    while ((send = plain_walk_ask(walk, request, sizeof request)) !=
           EK_SEND_NOTHING) {
        switch (call(row, count, request, send, &card)) {
        case 0:
            plain_walk_hear_silence(walk, list, EK_LIST_PLACES);
            break;
        case 1:
            plain_answer(card, answer);
            plain_walk_hear_bytes(walk, answer, sizeof answer, list,
                                  EK_LIST_PLACES);
            break;
        default:
            plain_walk_hear_clash(walk, list, EK_LIST_PLACES);
        }
    }
}

/* ---- output */

static char *put_text(char *at, const char *text)
{
    size_t n = strlen(text);
    memcpy(at, text, n);
    return at + n;
}

/* A number below 1000. */
static char *put_decimal(char *at, unsigned number)
{
    if (number >= 100) {
        *at++ = (char)('0' + number / 100);
    }
    if (number >= 10) {
        *at++ = (char)('0' + number / 10 % 10);
    }
    *at++ = (char)('0' + number % 10);
    return at;
}

static char *put_uid(char *at, uint64_t uid)
{
    for (int shift = 60; shift >= 0; shift -= 4) {
        *at++ = "0123456789ABCDEF"[uid >> shift & 15];
    }
    return at;
}

static char *put_report(char *at, const struct ek_walk *walk,
                        const uint64_t *list)
{
    static const char *const words[] = {"", "complete", "twins", "full",
                                        "overrun"};
    at = put_text(at, "verdict ");
    at = put_text(at, words[walk->ending]);
    at = put_text(at, "\nrounds ");
    at = put_decimal(at, walk->rounds);
    at = put_text(at, "\ncards ");
    at = put_decimal(at, walk->count);
    *at++ = '\n';
    for (unsigned i = 0; i < walk->count; i++) {
        at = put_uid(at, list[i]);
        *at++ = '\n';
    }
    return at;
}

static char *put_complaint(char *at, size_t line)
{
    at = put_text(at, "bad line ");
    at = put_decimal(at, (unsigned)line);
    *at++ = '\n';
    return at;
}

int main(void)
{
    static uint8_t input[INPUT_MAX];
    static struct card row[CARDS_MAX];
    static char printed[PRINTED_MAX];
    static uint64_t list[EK_LIST_PLACES];
    struct ek_walk walk;
    size_t count, length = read_all(STDIN_FILENO, input, sizeof input);
    size_t bad = read_row(input, length, row, &count);
    char *end;
    if (bad != 0) {
        end = put_complaint(printed, bad);
    } else {
        play(row, count, &walk, list);
        end = put_report(printed, &walk, list);
    }
    if (write(STDOUT_FILENO, printed, (size_t)(end - printed)) !=
        end - printed) {
        fputs("bench: standard output failed\n", stderr);
    }
    return 0;
}

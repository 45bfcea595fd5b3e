/*
 * The library's reader of the block commands beside the same in plain C: a
 * request made, and an answer read. Both first get the same requests and
 * answers, drawn without order but the same in every run, and must never
 * differ. The script run makes a table of what is printed here.
 *
 *     reader time|same
 */
#include <stdbool.h>
#include <stdio.h>
#include <stdlib.h>
#include <string.h>

#include "espenknoten.h"
#include "plain.h"
#include "plain_reader.h"
#include "turns.h"

#define DRAWS 100000
#define BLOCKS_ROOM (EK_CARD_BLOCKS_MAX * EK_CARD_SIZE_MAX)
#define LOCKS_ROOM EK_CARD_BLOCKS_MAX

/* An answer may be a little too long. */
#define ANSWER_ROOM (EK_ANSWER_MAX + 8)

/* Stands in every room before a call, so that a stray write is seen. */
#define FILL 0xA5

struct side {
    int64_t (*make)(struct ek_request, const uint8_t *, size_t, uint8_t *,
                    size_t);
    struct ek_reading (*read)(struct ek_request, const uint8_t *, size_t,
                              uint8_t *, size_t, uint8_t *, size_t);
};

static const struct side SIDES[] = {
    [OURS] = {ek_make, ek_read},
    [PLAIN] = {plain_make, plain_read},
};

/* Numbers without order, the same in every run. */
static unsigned draw(unsigned below)
{
    static uint32_t x = 15693;
    x ^= x << 13;
    x ^= x >> 17;
    x ^= x << 5;
    return (x >> 8) % below;
}

static void draw_bytes(uint8_t *bytes, size_t length)
{
    for (size_t i = 0; i < length; i++) {
        bytes[i] = (uint8_t)draw(256);
    }
}

/* Puts the check behind so many bytes; returns the new length. */
static size_t seal(uint8_t *bytes, size_t length)
{
    uint16_t check = plain_check(bytes, length);
    bytes[length] = (uint8_t)check;
    bytes[length + 1] = (uint8_t)(check >> 8);
    return length + 2;
}

/* ---- side by side */

/* All that a side has written. */
struct state {
    int64_t made;
    struct ek_reading reading;
    uint8_t frame[EK_MADE_MAX + 1];
    uint8_t blocks[BLOCKS_ROOM + 1], locks[LOCKS_ROOM + 1];
};

static struct state ours, plain;

static void same(const char *what)
{
    if (memcmp(&ours, &plain, sizeof ours) != 0) {
        fprintf(stderr, "bench: ours and plain differ: %s\n", what);
        exit(1);
    }
}

/* A request that is made, for the most part. */
static struct ek_request draw_request(void)
{
    struct ek_request request;
    draw_bytes((uint8_t *)&request, sizeof request);
    request.size = (uint16_t)(draw(30) == 0 ? draw(65536) : draw(34));
    request.command = (uint8_t)(draw(30) == 0 ? draw(256) : 0x20 + draw(13));
    request.mode = (uint8_t)(draw(4) == 0 ? draw(256) : draw(3));
    request.option = (uint8_t)(draw(2) == 0 ? 0 : draw(256));
    request.n = (uint8_t)(draw(4) == 0 ? draw(256) : draw(8));
    return request;
}

/* What the command says after the flags, and now and then a byte more or
 * less. */
static size_t draw_part(struct ek_request request, uint8_t *part)
{
    size_t count = request.n + 1u, size = request.size % 64u, n = 0;
    switch (request.command) {
    case 0x20:
        n = size + (request.option != 0);
        break;
    case 0x23:
        n = count * (size + (request.option != 0));
        break;
    case 0x2B:
        n = 14;
        break;
    case 0x2C:
        n = count;
        break;
    }
    n = n + (draw(20) == 0) - (draw(20) == 0 && n > 0);
    if (n > EK_ANSWER_MAX) {
        n = EK_ANSWER_MAX;
    }
    draw_bytes(part, n);
    if (request.command == 0x2B && draw(8) != 0) {
        part[0] = EK_INFORMATION_ALL;
    }
    return n;
}

static size_t draw_answer(struct ek_request request, uint8_t *answer)
{
    size_t n = 1;
    answer[0] = EK_ANSWER_SUCCESS;
    if (draw(4) == 0) {
        answer[0] = EK_ANSWER_ERROR;
        draw_bytes(answer + 1, 2);
        n = draw(8) == 0 ? 1 + draw(3) : 2;
    } else {
        n += draw_part(request, answer + 1);
    }
    if (draw(30) == 0) {
        answer[0] = (uint8_t)draw(256);
    }
    n = seal(answer, n);
    if (draw(20) == 0) {
        answer[draw((unsigned)n)] ^= (uint8_t)(1u << draw(8));
    }
    return draw(40) == 0 ? draw(4) : n;
}

/* A room that is most often long enough. */
static size_t draw_room(size_t room)
{
    switch (draw(6)) {
    case 0:
        return draw((unsigned)room + 1);
    case 1:
        return draw(40);
    default:
        return room;
    }
}

/* How often reading ended in each way: refused by a number, or of a kind. */
static unsigned refusals[12], kinds[EK_READ_ERROR + 1];

static void compare_readers(void)
{
    static uint8_t answer[ANSWER_ROOM];
    for (unsigned i = 0; i < DRAWS; i++) {
        struct ek_request request = draw_request();
        uint8_t data[64];
        size_t length = draw(10) == 0 ? draw(64) : request.size % 64u;
        size_t room = draw(10) == 0 ? draw(EK_MADE_MAX + 1) : EK_MADE_MAX;
        draw_bytes(data, sizeof data);
        memset(&ours, FILL, sizeof ours);
        memset(&plain, FILL, sizeof plain);
        ours.made = ek_make(request, data, length, ours.frame, room);
        plain.made = plain_make(request, data, length, plain.frame, room);
        same("a request");

        size_t n = draw_answer(request, answer);
        size_t blocks = draw_room(BLOCKS_ROOM), locks = draw_room(LOCKS_ROOM);
        ours.reading = ek_read(request, answer, n, ours.blocks, blocks,
                               ours.locks, locks);
        plain.reading = plain_read(request, answer, n, plain.blocks, blocks,
                                   plain.locks, locks);
        same("a reading");
        int64_t told = ours.reading.answer;
        (*(told < 0 ? &refusals[-told] : &kinds[EK_READ_KIND(told)]))++;
    }
    for (unsigned kind = EK_READ_DONE; kind <= EK_READ_ERROR; kind++) {
        if (kinds[kind] < DRAWS / 200) {
            fprintf(stderr, "bench: too few readings of kind %u\n", kind);
            exit(1);
        }
    }
    if (refusals[-EK_REFUSED_REQUEST] == 0 || refusals[-EK_REFUSED_ROOM] == 0 ||
        refusals[-EK_REFUSED_ANSWER] == 0) {
        fprintf(stderr, "bench: a refusal of reading was never met\n");
        exit(1);
    }
}

/* ---- the clock */

#define TAGS 8
#define SIZE 4
#define LARGE 32

enum task { MAKE, READ };

struct row {
    const char *name;
    enum task task;
    uint8_t command, option, n, size;
};

static const struct row ROWS[] = {
    {"reader, make of 20", MAKE, 0x20, 0, 0, SIZE},
    {"reader, make of 21, 32 bytes", MAKE, 0x21, 0, 0, LARGE},
    {"reader, read of a block", READ, 0x20, 0, 0, SIZE},
    {"reader, read of 32, Option", READ, 0x23, 1, 31, SIZE},
    {"reader, read of 2B", READ, 0x2B, 0, 0, SIZE},
};
#define ROW_COUNT (sizeof ROWS / sizeof ROWS[0])

/* Requests to different tags, what is written, and what each tag answers. */
static struct ek_request requests[TAGS];
static uint8_t written[TAGS][LARGE];
static uint8_t answers[TAGS][3 + LARGE * (SIZE + 1)];
static size_t answer_length;

/* Takes every answer, so that no call can be left out. */
static volatile uint64_t sink;

static const char *name(size_t i)
{
    return ROWS[i].name;
}

static size_t part_length(const struct row *row)
{
    return row->command == 0x2B
               ? 14
               : (row->n + 1u) * (size_t)(row->size + row->option);
}

static void prepare(size_t i)
{
    const struct row *row = &ROWS[i];
    for (size_t t = 0; t < TAGS; t++) {
        struct ek_request request = {0};
        request.uid = UINT64_C(0xE004010000000000) + 37 * t;
        request.size = row->size;
        request.command = row->command;
        request.mode = EK_TO_UID;
        request.option = row->option;
        request.first = (uint8_t)t;
        request.n = row->n;
        requests[t] = request;
        draw_bytes(written[t], sizeof written[t]);
        if (row->task == READ) {
            size_t part = part_length(row);
            answers[t][0] = EK_ANSWER_SUCCESS;
            draw_bytes(answers[t] + 1, part);
            if (row->command == 0x2B) {
                answers[t][1] = EK_INFORMATION_ALL;
            }
            answer_length = seal(answers[t], 1 + part);
        }
    }
}

/* A pass takes all tags. */
static double turn(size_t i, enum who who, unsigned passes)
{
    const struct row *row = &ROWS[i];
    const struct side *side = &SIDES[who];
    uint8_t frame[EK_MADE_MAX], blocks[LARGE * SIZE], locks[LARGE];
    struct ek_reading reading;
    uint64_t sum = 0;
    double start = now_ns();
    for (unsigned pass = 0; pass < passes; pass++) {
        for (size_t t = 0; t < TAGS; t++) {
            switch (row->task) {
            case MAKE:
                sum += (uint64_t)side->make(requests[t], written[t], row->size,
                                            frame, sizeof frame);
                sum += frame[2];
                break;
            case READ:
                reading = side->read(requests[t], answers[t], answer_length,
                                     blocks, sizeof blocks, locks,
                                     sizeof locks);
                sum += (uint64_t)reading.answer + reading.information.blocks;
                break;
            }
        }
    }
    double spent = now_ns() - start;
    sink += sum;
    return spent;
}

int main(int count, char **given)
{
    bool timed = asked_for_times(count, given);
    compare_readers();
    if (timed) {
        compete(&(struct contest){ROW_COUNT, TAGS, name, no_best, prepare,
                                  turn});
    }
    return 0;
}

/*
 * The library's walk in place beside the same in plain C: a slot heard, and
 * what to send. Plain C is of the library's form, the walk by value; the rows
 * with "direct" have C that changes every field through the pointer. All first
 * go through many fields side by side and must never differ. The script run
 * makes a table of what is printed here.
 *
 *     walk time|same
 */
#include <stdbool.h>
#include <stdio.h>
#include <stdlib.h>
#include <string.h>

#include "espenknoten.h"
#include "plain.h"
#include "plain_walk.h"
#include "turns.h"

#define ANSWER 12
#define SLOTS 16
/* A turn goes through slots 0 to 14 of a round, or as often at one slot. */
#define STEPS 15
#define FIELDS 400
#define CARDS_MAX 70

struct side {
    void (*start)(struct ek_walk *, uint16_t);
    int64_t (*silence)(struct ek_walk *, uint64_t *, size_t);
    int64_t (*clash)(struct ek_walk *, uint64_t *, size_t);
    int64_t (*bytes)(struct ek_walk *, const uint8_t *, size_t, uint64_t *,
                     size_t);
    int64_t (*ask)(const struct ek_walk *, uint8_t *, size_t);
};

static const struct side LIBRARY = {ek_walk_start, ek_walk_hear_silence,
                                    ek_walk_hear_clash, ek_walk_hear_bytes,
                                    ek_walk_ask};
static const struct side SAME_FORM = {
    plain_walk_start, plain_walk_hear_silence, plain_walk_hear_clash,
    plain_walk_hear_bytes, plain_walk_ask};
static const struct side DIRECT = {
    plain_walk_start, direct_walk_hear_silence, direct_walk_hear_clash,
    direct_walk_hear_bytes, plain_walk_ask};

enum heard { SILENCE, CLASH, BYTES };

/* Bytes without order, the same in every run. */
static uint64_t random64(void)
{
    static uint64_t x = 15693;
    x ^= x << 13;
    x ^= x >> 7;
    x ^= x << 17;
    return x;
}

/* A UID with these digits below, one in so many with another start than E0. */
static uint64_t uid_of(uint64_t digits, unsigned others)
{
    uint64_t first = random64() % others == 0 ? random64() : 0xE0;
    return first << 56 | (digits & ((UINT64_C(1) << 56) - 1));
}

static void answer_of(uint64_t uid, uint8_t *answer)
{
    answer[0] = answer[1] = 0x00;
    for (unsigned i = 0; i < 8; i++) {
        answer[2 + i] = (uint8_t)(uid >> (8 * i));
    }
    uint16_t check = plain_check(answer, ANSWER - 2);
    answer[ANSWER - 2] = (uint8_t)check;
    answer[ANSWER - 1] = (uint8_t)(check >> 8);
}

/* ---- side by side */

/* Record, list and room of one side. */
struct state {
    struct ek_walk walk;
    uint64_t list[EK_LIST_PLACES];
    uint8_t room[EK_REQUEST_MAX];
};

static int64_t hear(const struct side *side, struct state *s, enum heard what,
                    const uint8_t *bytes, size_t length, size_t places)
{
    switch (what) {
    case SILENCE:
        return side->silence(&s->walk, s->list, places);
    case CLASH:
        return side->clash(&s->walk, s->list, places);
    default:
        return side->bytes(&s->walk, bytes, length, s->list, places);
    }
}

static void same(int64_t a, int64_t b, const struct state *ours,
                 const struct state *plain)
{
    if (a != b || memcmp(&ours->walk, &plain->walk, sizeof ours->walk) != 0 ||
        memcmp(ours->list, plain->list, sizeof ours->list) != 0 ||
        memcmp(ours->room, plain->room, sizeof ours->room) != 0) {
        fprintf(stderr, "bench: ours and plain differ in a walk\n");
        exit(1);
    }
}

/* What the field sends in the slot: now and then a false reply, of which many
 * fit mask and slot. */
static enum heard field(const uint64_t *cards, unsigned count,
                        const struct ek_walk *walk, uint8_t *answer,
                        size_t *length)
{
    unsigned bits = 4u * walk->level, answering = 0;
    uint64_t mask = ek_walk_mask(walk);
    *length = ANSWER;
    for (unsigned i = 0; i < count; i++) {
        if (((cards[i] ^ mask) & ((UINT64_C(1) << bits) - 1)) == 0 &&
            (cards[i] >> bits) % SLOTS == walk->slot) {
            answer_of(cards[i], answer);
            answering++;
        }
    }
    if (random64() % 64 == 0) {
        uint64_t digits = random64();
        if (random64() % 2 == 0) {
            digits = (digits << 4 | walk->slot) << bits | mask;
        }
        answer_of(uid_of(digits, 2), answer);
        answer[random64() % ANSWER] ^= (uint8_t)(random64() % 2);
        *length = random64() % 8 == 0 ? ANSWER - 1 : ANSWER;
        return BYTES;
    }
    return answering == 0 ? SILENCE : answering == 1 ? BYTES : CLASH;
}

static void compare_walks(const struct side *other)
{
    static uint64_t cards[CARDS_MAX];
    static struct state ours, plain;
    uint8_t answer[ANSWER];
    size_t length;
    for (unsigned f = 0; f < FIELDS; f++) {
        unsigned count = (unsigned)(random64() % CARDS_MAX);
        uint64_t spread = f % 2 == 0 ? 0xFFF : UINT64_MAX;
        for (unsigned i = 0; i < count; i++) {
            cards[i] = uid_of(random64() & spread, 512);
        }
        LIBRARY.start(&ours.walk, (uint16_t)(f % 300));
        other->start(&plain.walk, (uint16_t)(f % 300));
        if (f % 8 == 0) {
            ours.walk.rounds = plain.walk.rounds = EK_WALK_ROUNDS_MAX - 2;
        }
        for (unsigned step = 0; ours.walk.ending == EK_WALK_RUNNING; step++) {
            size_t room = step % 8 == 7 ? EK_REQUEST_MAX - 1 : EK_REQUEST_MAX;
            same(LIBRARY.ask(&ours.walk, ours.room, room),
                 other->ask(&plain.walk, plain.room, room), &ours, &plain);
            enum heard what =
                field(cards, count, &ours.walk, answer, &length);
            size_t places = step % 32 == 31 ? EK_LIST_PLACES - 1
                                            : EK_LIST_PLACES;
            same(hear(&LIBRARY, &ours, what, answer, length, places),
                 hear(other, &plain, what, answer, length, places), &ours,
                 &plain);
        }
        /* an ended walk, and a record with one byte turned */
        same(LIBRARY.ask(&ours.walk, ours.room, EK_REQUEST_MAX),
             other->ask(&plain.walk, plain.room, EK_REQUEST_MAX), &ours, &plain);
        uint8_t *byte = (uint8_t *)&ours.walk + random64() % sizeof ours.walk;
        *byte ^= (uint8_t)(1u << random64() % 8);
        plain.walk = ours.walk;
        same(LIBRARY.ask(&ours.walk, ours.room, EK_REQUEST_MAX),
             other->ask(&plain.walk, plain.room, EK_REQUEST_MAX), &ours, &plain);
        same(hear(&LIBRARY, &ours, CLASH, answer, 0, EK_LIST_PLACES),
             hear(other, &plain, CLASH, answer, 0, EK_LIST_PLACES), &ours,
             &plain);
    }
}

/* ---- the clock */

enum task { ROUND, TURN, ASK };

struct row {
    const char *name;
    const struct side *beside;
    enum task task;
    enum heard heard;
    uint8_t level;
    uint8_t slot;
};

static const struct row ROWS[] = {
    {"walk, silent slot", &SAME_FORM, ROUND, SILENCE, 7, 0},
    {"walk, clash", &SAME_FORM, ROUND, CLASH, 7, 0},
    {"walk, clean reply", &SAME_FORM, ROUND, BYTES, 7, 0},
    {"walk, slot 15, next round", &SAME_FORM, TURN, SILENCE, 7, 15},
    {"walk, request", &SAME_FORM, ASK, SILENCE, 7, 0},
    {"walk, slot mark", &SAME_FORM, ASK, SILENCE, 7, 1},
    {"direct, silent slot", &DIRECT, ROUND, SILENCE, 7, 0},
    {"direct, clash", &DIRECT, ROUND, CLASH, 7, 0},
    {"direct, clean reply", &DIRECT, ROUND, BYTES, 7, 0},
    {"direct, slot 15, next round", &DIRECT, TURN, SILENCE, 7, 15},
};
#define ROW_COUNT (sizeof ROWS / sizeof ROWS[0])

/* The record that the row begins with, and clean replies for its slots. */
static struct ek_walk first;
static uint8_t replies[STEPS][ANSWER];

/* Takes every answer, so that no call can be left out. */
static volatile uint64_t sink;

static const char *name(size_t i)
{
    return ROWS[i].name;
}

static void prepare(size_t i)
{
    const struct row *row = &ROWS[i];
    ek_walk_start(&first, 0x11);
    first.level = row->level;
    first.slot = row->slot;
    first.rounds = (uint16_t)(row->level + 1);
    first.mask_low = 0x5A3C96F & ((1u << (4 * row->level)) - 1);
    first.marks[row->level / 2] = 0x8020;
    for (unsigned slot = 0; slot < STEPS; slot++) {
        uint64_t digits =
            ek_walk_mask(&first) | (uint64_t)slot << (4 * row->level);
        answer_of(UINT64_C(0xE004010000000000) | digits, replies[slot]);
    }
}

/* A pass is STEPS calls. */
static double turn(size_t i, enum who who, unsigned passes)
{
    const struct row *row = &ROWS[i];
    const struct side *side = who == OURS ? &LIBRARY : row->beside;
    struct state s;
    uint64_t sum = 0;
    double start = now_ns();
    for (unsigned pass = 0; pass < passes; pass++) {
        s.walk = first;
        for (unsigned step = 0; step < STEPS; step++) {
            switch (row->task) {
            case TURN:
                s.walk = first;
                /* falls through */
            case ROUND:
                sum += (uint64_t)hear(side, &s, row->heard, replies[step],
                                      ANSWER, EK_LIST_PLACES);
                break;
            case ASK:
                sum += (uint64_t)side->ask(&first, s.room, sizeof s.room);
                break;
            }
        }
        sum += s.walk.slot;
    }
    double spent = now_ns() - start;
    sink += sum;
    return spent;
}

int main(int count, char **given)
{
    bool timed = asked_for_times(count, given);
    compare_walks(&SAME_FORM);
    compare_walks(&DIRECT);
    if (timed) {
        compete(&(struct contest){ROW_COUNT, STEPS, name, no_best, prepare,
                                  turn});
    }
    return 0;
}

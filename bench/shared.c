/*
 * The library's walk over a list that two racks share, beside the same in plain
 * C: a slot heard, and a start. Both first take two racks through many fields
 * in turn and must never differ. The script run makes a table of what is
 * printed here.
 *
 *     shared time|same
 */
#include <stdbool.h>
#include <stdio.h>
#include <stdlib.h>
#include <string.h>

#include "espenknoten.h"
#include "plain.h"
#include "plain_walk.h"
#include "turns.h"

#define RACKS 2
#define ANSWER 12
#define SLOTS 16
/* A turn goes through slots 0 to 14 of a round, or as often at one slot. */
#define STEPS 15
#define ARMS 400
#define CARDS_MAX 45

struct side {
    int64_t (*start)(struct ek_walk *, uint32_t, uint16_t, uint8_t *, size_t);
    int64_t (*silence)(struct ek_walk *, uint32_t, uint64_t *, size_t,
                       uint8_t *, size_t);
    int64_t (*clash)(struct ek_walk *, uint32_t, uint64_t *, size_t, uint8_t *,
                     size_t);
    int64_t (*bytes)(struct ek_walk *, uint32_t, const uint8_t *, size_t,
                     uint64_t *, size_t, uint8_t *, size_t);
};

static const struct side SIDES[] = {
    [OURS] = {ek_shared_start, ek_shared_hear_silence, ek_shared_hear_clash,
              ek_shared_hear_bytes},
    [PLAIN] = {plain_shared_start, plain_shared_hear_silence,
               plain_shared_hear_clash, plain_shared_hear_bytes},
};

enum heard { SILENCE, CLASH, BYTES };

/* A call to start or to hear. */
struct call {
    bool start;
    uint32_t rack;
    uint16_t family;
    enum heard heard;
    uint8_t answer[ANSWER];
    size_t length, places, marks;
};

/* A walk for each rack and one list, with places past it that must stay; no
 * padding. */
struct state {
    struct ek_walk walks[RACKS];
    uint64_t rows[EK_LIST_PLACES + 1];
    uint8_t owners[EK_LIST_PLACES + 8];
};

/* Numbers without order, the same in every run. */
static unsigned draw(unsigned below)
{
    static uint64_t x = 15693;
    x ^= x << 13;
    x ^= x >> 7;
    x ^= x << 17;
    return (unsigned)(x >> 16) % below;
}

/* A UID with these digits below, one in so many with another start than E0. */
static uint64_t uid_of(uint64_t digits, unsigned others)
{
    uint64_t first = draw(others) == 0 ? draw(256) : 0xE0;
    return first << 56 | (digits & ((UINT64_C(1) << 56) - 1));
}

static void answer_of(uint64_t uid, uint8_t *answer)
{
    answer[0] = answer[1] = 0x00;
    for (unsigned i = 0; i < 8; i++) {
        answer[2 + i] = (uint8_t)(uid >> (8 * i));
    }
    uint16_t check = plain_check(answer, ANSWER - 2);
    answer[ANSWER - 2] = (uint8_t)check;
    answer[ANSWER - 1] = (uint8_t)(check >> 8);
}

static int64_t made(const struct side *side, struct ek_walk *walk,
                    struct state *s, const struct call *call)
{
    if (call->start) {
        return side->start(walk, call->rack, call->family, s->owners,
                           call->marks);
    }
    switch (call->heard) {
    case SILENCE:
        return side->silence(walk, call->rack, s->rows, call->places, s->owners,
                             call->marks);
    case CLASH:
        return side->clash(walk, call->rack, s->rows, call->places, s->owners,
                           call->marks);
    default:
        return side->bytes(walk, call->rack, call->answer, call->length,
                           s->rows, call->places, s->owners, call->marks);
    }
}

/* ---- side by side */

static struct state ours, plain;

/* How often each number came back, to see that every refusal was met. */
static unsigned met[-EK_REFUSED_RACK + 1];

/* The call on both sides, with the walk of a rack. */
static void same(unsigned rack, const struct call *call)
{
    int64_t a = made(&SIDES[OURS], &ours.walks[rack], &ours, call);
    int64_t b = made(&SIDES[PLAIN], &plain.walks[rack], &plain, call);
    if (a != b || memcmp(&ours, &plain, sizeof ours) != 0) {
        fprintf(stderr, "bench: ours and plain differ over a shared list\n");
        exit(1);
    }
    met[-a]++;
}

static uint64_t cards[RACKS][CARDS_MAX];
static unsigned counts[RACKS];

/* Cards of both racks, some of them alike. */
static void draw_cards(bool near)
{
    for (unsigned rack = 0; rack < RACKS; rack++) {
        counts[rack] = draw(CARDS_MAX + 1);
        for (unsigned i = 0; i < counts[rack]; i++) {
            uint64_t digits = (uint64_t)draw(1u << 31) << 32 | draw(1u << 31);
            cards[rack][i] = uid_of(near ? digits & 0xFFF : digits, 512);
        }
    }
    if (counts[0] > 0 && counts[1] > 0) {
        cards[1][0] = cards[0][0];
    }
}

/* What the cards of a rack send in the slot: now and then a false reply, of
 * which many fit mask and slot. */
static void answer_slot(unsigned rack, struct call *call)
{
    const struct ek_walk *walk = &ours.walks[rack];
    unsigned bits = 4u * walk->level, answering = 0;
    uint64_t mask = ek_walk_mask(walk);
    call->length = ANSWER;
    for (unsigned i = 0; i < counts[rack]; i++) {
        uint64_t uid = cards[rack][i];
        if (((uid ^ mask) & ((UINT64_C(1) << bits) - 1)) == 0 &&
            (uid >> bits) % SLOTS == walk->slot) {
            answer_of(uid, call->answer);
            answering++;
        }
    }
    call->heard = answering == 0 ? SILENCE : answering == 1 ? BYTES : CLASH;
    if (draw(64) == 0) {
        uint64_t digits = draw(1u << 31);
        if (draw(2) == 0) {
            digits = (digits << 4 | walk->slot) << bits | mask;
        }
        answer_of(uid_of(digits, 2), call->answer);
        call->answer[draw(ANSWER)] ^= (uint8_t)draw(2);
        call->length = draw(8) == 0 ? ANSWER - 1 : ANSWER;
        call->heard = BYTES;
    }
}

/* Makes one thing wrong, for the most part: an argument, a mark, how many rows
 * a rack owns, or the record. */
static void damage(unsigned rack, struct call *call)
{
    struct ek_walk *walk = &ours.walks[rack];
    switch (draw(6)) {
    case 0:
        call->rack = draw(4) == 0 ? 256 + rack : 1 - rack + draw(3);
        break;
    case 1:
        call->places = draw(EK_LIST_PLACES + 2);
        break;
    case 2:
        call->marks = draw(EK_LIST_PLACES + 2);
        break;
    case 3:
        ours.owners[draw(EK_LIST_PLACES)] = (uint8_t)draw(256);
        break;
    case 4:
        memset(ours.owners, (int)draw(RACKS), draw(EK_LIST_PLACES + 1));
        walk->count = 0;
        for (size_t i = 0; i < EK_LIST_PLACES; i++) {
            walk->count += ours.owners[i] == rack;
        }
        break;
    default:
        ((uint8_t *)walk)[draw(sizeof *walk)] ^= (uint8_t)(1u << draw(8));
        break;
    }
}

/* A call with one fault or more. All that was made wrong for it is put right
 * after it. */
static void damaged(unsigned rack, struct call call)
{
    struct state good = ours;
    call.start = draw(4) == 0;
    do {
        damage(rack, &call);
    } while (draw(3) == 0);
    plain = ours;
    same(rack, &call);
    ours = plain = good;
}

/* Both racks to their ends, in turns without order; now and then one starts
 * anew, and the other goes on. */
static void compare(void)
{
    memset(ours.owners, EK_ROW_FREE, EK_LIST_PLACES); /* past them 0 */
    plain = ours;
    for (unsigned arm = 0; arm < ARMS; arm++) {
        struct call call = {.places = EK_LIST_PLACES, .marks = EK_LIST_PLACES};
        draw_cards(arm % 2 == 0);
        for (unsigned rack = 0; rack < RACKS; rack++) {
            call.start = true;
            call.rack = rack;
            call.family = (uint16_t)draw(300);
            same(rack, &call);
            if (arm % 8 == 0) {
                ours.walks[rack].rounds = EK_WALK_ROUNDS_MAX - 2;
                plain.walks[rack].rounds = EK_WALK_ROUNDS_MAX - 2;
            }
        }
        while (ours.walks[0].ending == EK_WALK_RUNNING ||
               ours.walks[1].ending == EK_WALK_RUNNING) {
            unsigned rack = draw(RACKS);
            call.rack = rack;
            call.start = draw(1000) == 0;
            answer_slot(rack, &call);
            if (draw(16) == 0) {
                damaged(rack, call);
            }
            same(rack, &call);
        }
    }
    if (met[5] == 0 || met[6] == 0 || met[10] == 0 || met[13] == 0) {
        fprintf(stderr, "bench: a refusal was not met\n");
        exit(1);
    }
}

/* ---- the clock */

enum task { ROUND, TURN, START };

struct row {
    const char *name;
    enum task task;
    enum heard heard;
    unsigned free; /* the lowest free row */
    unsigned owned[RACKS];
};

static const struct row ROWS[] = {
    {"shared, silent slot", ROUND, SILENCE, 24, {12, 12}},
    {"shared, clash", ROUND, CLASH, 24, {12, 12}},
    {"shared, clean, lowest free row 0", TURN, BYTES, 0, {12, 12}},
    {"shared, clean, lowest free row 63", TURN, BYTES, 63, {39, 24}},
    {"shared, start", START, SILENCE, 24, {12, 12}},
};
#define ROW_COUNT (sizeof ROWS / sizeof ROWS[0])

/* The state that the row begins with, a call to rack 0 and clean replies for
 * its slots. */
static struct state first;
static struct call calls[STEPS];

/* Takes every answer, so that no call can be left out. */
static volatile uint64_t sink;

static const char *name(size_t i)
{
    return ROWS[i].name;
}

/* Rows owned by the racks in no order, the lowest free row among them. */
static void prepare_list(const struct row *row)
{
    unsigned left[RACKS] = {row->owned[0], row->owned[1]};
    memset(first.owners, EK_ROW_FREE, sizeof first.owners);
    for (unsigned i = 0; left[0] + left[1] > 0; i++) {
        if (i != row->free) {
            unsigned rack = draw(left[0] + left[1]) < left[0] ? 0 : 1;
            first.owners[i] = (uint8_t)rack;
            left[rack]--;
        }
    }
}

/* The walk of rack 0, in slot 0 of a round at level 7. */
static void prepare(size_t i)
{
    const struct row *row = &ROWS[i];
    struct ek_walk *walk = &first.walks[0];
    prepare_list(row);
    memset(walk, 0, sizeof *walk);
    walk->family = 0x11;
    walk->level = 7;
    walk->rounds = 8;
    walk->mask_low = 0x5A3C96F;
    walk->marks[3] = 0x8020;
    walk->count = (uint8_t)row->owned[0];
    for (unsigned step = 0; step < STEPS; step++) {
        struct call *call = &calls[step];
        uint64_t slot = row->task == ROUND ? step : 0;
        call->start = row->task == START;
        call->heard = row->heard;
        call->length = ANSWER;
        call->places = call->marks = EK_LIST_PLACES;
        answer_of(UINT64_C(0xE004010000000000) | walk->mask_low | slot << 28,
                  call->answer);
    }
}

/* A pass is STEPS calls. */
static double turn(size_t i, enum who who, unsigned passes)
{
    const struct row *row = &ROWS[i];
    const struct side *side = &SIDES[who];
    struct state s = first;
    uint64_t sum = 0;
    double start = now_ns();
    for (unsigned pass = 0; pass < passes; pass++) {
        s.walks[0] = first.walks[0];
        for (unsigned step = 0; step < STEPS; step++) {
            if (row->task == TURN) {
                s.walks[0] = first.walks[0];
                s.owners[row->free] = EK_ROW_FREE;
            } else if (row->task == START) {
                memcpy(s.owners, first.owners, EK_LIST_PLACES);
            }
            sum += (uint64_t)made(side, &s.walks[0], &s, &calls[step]);
        }
        sum += s.walks[0].slot;
    }
    double spent = now_ns() - start;
    sink += sum;
    return spent;
}

int main(int count, char **given)
{
    bool timed = asked_for_times(count, given);
    compare();
    if (timed) {
        compete(&(struct contest){ROW_COUNT, STEPS, name, no_best, prepare,
                                  turn});
    }
    return 0;
}

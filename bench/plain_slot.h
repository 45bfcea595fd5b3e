/* What a slot makes of a walk, whosever the list is: the steps of plain_walk.c
 * and plain_shared.c. Each file has them for itself, so that the compiler makes
 * of one what it would make without the other. */
#ifndef PLAIN_SLOT_H
#define PLAIN_SLOT_H

#include <stdbool.h>
#include <stddef.h>
#include <stdint.h>

#include "espenknoten.h"
#include "plain.h"

#define LEVELS EK_WALK_LEVELS
#define SLOTS 16

/* The first byte of every UID. */
#define FIRST 0xE0

enum kind { SILENCE, CLASH, BYTES };

struct slot {
    enum { SILENT, CLASHED, CLEAN } what;
    uint64_t uid;
};

struct heard {
    struct ek_walk walk;
    uint8_t number;
};

/* One more than the deepest level with a mark, or 0. */
static unsigned deepest(const uint16_t *marks)
{
    unsigned n = LEVELS;
    while (n > 0 && marks[n - 1] == 0) {
        n--;
    }
    return n;
}

static uint64_t low(uint64_t x, unsigned bits)
{
    return x & ((UINT64_C(1) << bits) - 1);
}

static bool accepted(struct ek_walk walk)
{
    if (walk.level >= LEVELS || walk.slot >= SLOTS ||
        walk.count > EK_LIST_PLACES || walk.rounds == 0 ||
        walk.rounds > EK_WALK_ROUNDS_MAX ||
        low(ek_walk_mask(&walk), 4u * walk.level) != ek_walk_mask(&walk)) {
        return false;
    }
    unsigned n = deepest(walk.marks);
    return n <= walk.level + 1u && n < LEVELS;
}

static uint8_t refusal(struct ek_walk walk, size_t places)
{
    if (!accepted(walk)) {
        return 10;
    }
    if (walk.ending != EK_WALK_RUNNING) {
        return 6;
    }
    return places < EK_LIST_PLACES ? 5 : 0;
}

static struct ek_walk ended(struct ek_walk walk, uint8_t ending)
{
    walk.ending = ending;
    return walk;
}

/* Opens the lowest slot that waits at the level. */
static struct ek_walk opened(struct ek_walk walk, unsigned level)
{
    unsigned slot = 0;
    while (slot < SLOTS - 1 && (walk.marks[level] >> slot & 1) == 0) {
        slot++;
    }
    uint64_t mask =
        low(ek_walk_mask(&walk), 4 * level) | (uint64_t)slot << (4 * level);
    walk.marks[level] = (uint16_t)(walk.marks[level] & ~(1u << slot));
    walk.mask_low = (uint32_t)mask;
    walk.mask_high = (uint32_t)(mask >> 32);
    walk.rounds++;
    walk.level = (uint8_t)(level + 1);
    walk.slot = 0;
    return walk;
}

static struct ek_walk turned(struct ek_walk walk, unsigned n)
{
    if (n == 0) {
        return ended(walk, EK_WALK_COMPLETE);
    }
    if (walk.rounds < EK_WALK_ROUNDS_MAX) {
        return opened(walk, n - 1);
    }
    return ended(walk, EK_WALK_OVERRUN);
}

static struct ek_walk passed(struct ek_walk walk)
{
    if (walk.slot < SLOTS - 1) {
        walk.slot++;
        return walk;
    }
    return turned(walk, deepest(walk.marks));
}

static uint64_t uid_of(const uint8_t *bytes)
{
    uint64_t uid = 0;
    for (unsigned i = 0; i < 8; i++) {
        uid |= (uint64_t)bytes[2 + i] << (8 * i);
    }
    return uid;
}

static bool clean(struct ek_walk walk, const uint8_t *bytes, size_t length)
{
    if (length != 12) {
        return false;
    }
    uint16_t check = plain_check(bytes, 10);
    if (bytes[10] != (check & 0xFF) || bytes[11] != check >> 8 ||
        bytes[0] != 0x00) {
        return false;
    }
    unsigned bits = 4u * walk.level;
    uint64_t uid = uid_of(bytes);
    return low(uid, bits) == ek_walk_mask(&walk) &&
           (uid >> bits) % SLOTS == walk.slot && uid >> 56 == FIRST;
}

static struct slot judged(struct ek_walk walk, enum kind kind,
                          const uint8_t *bytes, size_t length)
{
    struct slot slot = {kind == SILENCE ? SILENT : CLASHED, 0};
    if (kind == BYTES && clean(walk, bytes, length)) {
        slot.what = CLEAN;
        slot.uid = uid_of(bytes);
    }
    return slot;
}

static int64_t in_place(struct ek_walk *walk, struct heard heard)
{
    *walk = heard.walk;
    return -(int64_t)heard.number;
}

#endif

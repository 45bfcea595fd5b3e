/* Hearing with every field changed through the pointer: not the library's
 * form, and what a C programmer may write. */
#include "plain_walk.h"

#include <stdbool.h>

#include "plain.h"

#define LEVELS EK_WALK_LEVELS
#define SLOTS 16

/* The first byte of every UID. */
#define FIRST 0xE0

/* One more than the deepest level with a mark, or 0. */
static unsigned deepest(const struct ek_walk *walk)
{
    unsigned n = LEVELS;
    while (n > 0 && walk->marks[n - 1] == 0) {
        n--;
    }
    return n;
}

static uint64_t low(uint64_t x, unsigned bits)
{
    return x & ((UINT64_C(1) << bits) - 1);
}

static bool accepted(const struct ek_walk *walk)
{
    if (walk->level >= LEVELS || walk->slot >= SLOTS ||
        walk->count > EK_LIST_PLACES || walk->rounds == 0 ||
        walk->rounds > EK_WALK_ROUNDS_MAX ||
        low(ek_walk_mask(walk), 4u * walk->level) != ek_walk_mask(walk)) {
        return false;
    }
    unsigned n = deepest(walk);
    return n <= walk->level + 1u && n < LEVELS;
}

static int64_t refusal(const struct ek_walk *walk, size_t places)
{
    if (!accepted(walk)) {
        return EK_REFUSED_WALK;
    }
    if (walk->ending != EK_WALK_RUNNING) {
        return EK_REFUSED_ENDED;
    }
    return places < EK_LIST_PLACES ? EK_REFUSED_LIST : 0;
}

/* Opens the lowest slot that waits at the level. */
static void open(struct ek_walk *walk, unsigned level)
{
    unsigned slot = 0;
    while (slot < SLOTS - 1 && (walk->marks[level] >> slot & 1) == 0) {
        slot++;
    }
    uint64_t mask =
        low(ek_walk_mask(walk), 4 * level) | (uint64_t)slot << (4 * level);
    walk->marks[level] = (uint16_t)(walk->marks[level] & ~(1u << slot));
    walk->mask_low = (uint32_t)mask;
    walk->mask_high = (uint32_t)(mask >> 32);
    walk->rounds++;
    walk->level = (uint8_t)(level + 1);
    walk->slot = 0;
}

static void pass(struct ek_walk *walk)
{
    if (walk->slot < SLOTS - 1) {
        walk->slot++;
        return;
    }
    unsigned n = deepest(walk);
    if (n == 0) {
        walk->ending = EK_WALK_COMPLETE;
    } else if (walk->rounds < EK_WALK_ROUNDS_MAX) {
        open(walk, n - 1);
    } else {
        walk->ending = EK_WALK_OVERRUN;
    }
}

static void clash(struct ek_walk *walk)
{
    if (walk->level == LEVELS - 1) {
        walk->ending = EK_WALK_TWINS;
        return;
    }
    walk->marks[walk->level] |= (uint16_t)(1u << walk->slot);
    pass(walk);
}

static uint64_t uid_of(const uint8_t *bytes)
{
    uint64_t uid = 0;
    for (unsigned i = 0; i < 8; i++) {
        uid |= (uint64_t)bytes[2 + i] << (8 * i);
    }
    return uid;
}

static bool clean(const struct ek_walk *walk, const uint8_t *bytes,
                  size_t length)
{
    if (length != 12) {
        return false;
    }
    uint16_t check = plain_check(bytes, 10);
    if (bytes[10] != (check & 0xFF) || bytes[11] != check >> 8 ||
        bytes[0] != 0x00) {
        return false;
    }
    unsigned bits = 4u * walk->level;
    uint64_t uid = uid_of(bytes);
    return low(uid, bits) == ek_walk_mask(walk) &&
           (uid >> bits) % SLOTS == walk->slot && uid >> 56 == FIRST;
}

int64_t direct_walk_hear_silence(struct ek_walk *walk, uint64_t *list,
                                size_t places)
{
    int64_t number = refusal(walk, places);
    (void)list;
    if (number == 0) {
        pass(walk);
    }
    return number;
}

int64_t direct_walk_hear_clash(struct ek_walk *walk, uint64_t *list,
                              size_t places)
{
    int64_t number = refusal(walk, places);
    (void)list;
    if (number == 0) {
        clash(walk);
    }
    return number;
}

int64_t direct_walk_hear_bytes(struct ek_walk *walk, const uint8_t *bytes,
                              size_t length, uint64_t *list, size_t places)
{
    int64_t number = refusal(walk, places);
    if (number != 0) {
        return number;
    }
    if (!clean(walk, bytes, length)) {
        clash(walk);
    } else if (walk->count == EK_LIST_PLACES) {
        walk->ending = EK_WALK_FULL;
    } else {
        list[walk->count++] = uid_of(bytes);
        pass(walk);
    }
    return 0;
}

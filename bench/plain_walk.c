/*
 * The form of the library in plain C: the walk goes by value from function to
 * function, and the calls store what comes back where the record stands.
 */
#include "plain_walk.h"

#include <string.h>

#include "plain.h"
#include "plain_slot.h"

static struct ek_walk taken(struct ek_walk walk, struct slot slot,
                            uint64_t *list)
{
    switch (slot.what) {
    case SILENT:
        return passed(walk);
    case CLASHED:
        if (walk.level == LEVELS - 1) {
            return ended(walk, EK_WALK_TWINS);
        }
        walk.marks[walk.level] |= (uint16_t)(1u << walk.slot);
        return passed(walk);
    default:
        if (walk.count == EK_LIST_PLACES) {
            return ended(walk, EK_WALK_FULL);
        }
        list[walk.count++] = slot.uid;
        return passed(walk);
    }
}

static struct heard hear(struct ek_walk walk, enum kind kind,
                         const uint8_t *bytes, size_t length, uint64_t *list,
                         size_t places)
{
    struct heard heard = {walk, refusal(walk, places)};
    if (heard.number == 0) {
        heard.walk = taken(walk, judged(walk, kind, bytes, length), list);
    }
    return heard;
}

void plain_walk_start(struct ek_walk *walk, uint16_t family)
{
    memset(walk, 0, sizeof *walk);
    walk->rounds = 1;
    walk->family = family;
}

int64_t plain_walk_hear_silence(struct ek_walk *walk, uint64_t *list,
                                size_t places)
{
    return in_place(walk, hear(*walk, SILENCE, NULL, 0, list, places));
}

int64_t plain_walk_hear_clash(struct ek_walk *walk, uint64_t *list,
                              size_t places)
{
    return in_place(walk, hear(*walk, CLASH, NULL, 0, list, places));
}

int64_t plain_walk_hear_bytes(struct ek_walk *walk, const uint8_t *bytes,
                              size_t length, uint64_t *list, size_t places)
{
    return in_place(walk, hear(*walk, BYTES, bytes, length, list, places));
}

int64_t plain_walk_ask(const struct ek_walk *walk, uint8_t *room,
                       size_t length)
{
    if (!accepted(*walk)) {
        return EK_REFUSED_WALK;
    }
    if (walk->ending != EK_WALK_RUNNING) {
        return EK_SEND_NOTHING;
    }
    if (walk->slot != 0) {
        return EK_SEND_MARK;
    }
    if (length < EK_REQUEST_MAX) {
        return EK_REFUSED_ROOM;
    }
    uint64_t mask = ek_walk_mask(walk);
    size_t n = 0;
    room[n++] = walk->family < 256 ? 0x16 : 0x06;
    room[n++] = 0x01;
    if (walk->family < 256) {
        room[n++] = (uint8_t)walk->family;
    }
    room[n++] = (uint8_t)(4 * walk->level);
    for (unsigned bits = 0; bits < 4u * walk->level; bits += 8) {
        room[n++] = (uint8_t)(mask >> bits);
    }
    uint16_t check = plain_check(room, n);
    room[n++] = (uint8_t)check;
    room[n++] = (uint8_t)(check >> 8);
    return (int64_t)n;
}

/*
 * Hearing over a list that two racks share, in plain C and in the library's
 * form: the marks are counted in one pass, and the lowest free row is looked
 * for where a UID needs one.
 */
#include "plain_slot.h"
#include "plain_walk.h"

#define RACKS 2

/* How many rows are free, and how many each rack owns. */
struct shares {
    uint8_t free, owned[RACKS];
};

static struct shares shared_by(const uint8_t *owners)
{
    uint8_t free = 0, first = 0, second = 0;
    for (size_t i = 0; i < EK_LIST_PLACES; i++) {
        free += owners[i] == EK_ROW_FREE;
        first += owners[i] == 0;
        second += owners[i] == 1;
    }
    return (struct shares){free, {first, second}};
}

static bool are_marks(struct shares shares)
{
    return shares.free + shares.owned[0] + shares.owned[1] == EK_LIST_PLACES;
}

static uint8_t shared_refusal(struct ek_walk walk, uint32_t rack,
                              size_t places, const uint8_t *owners,
                              size_t marks)
{
    if (rack >= RACKS) {
        return 13;
    }
    uint8_t number = refusal(walk, places);
    if (number != 0) {
        return number;
    }
    if (marks < EK_LIST_PLACES) {
        return 5;
    }
    struct shares shares = shared_by(owners);
    if (!are_marks(shares)) {
        return 5;
    }
    if (shares.owned[0] > EK_RACK_ROWS_MAX ||
        shares.owned[1] > EK_RACK_ROWS_MAX ||
        walk.count != shares.owned[rack]) {
        return 10;
    }
    return 0;
}

static size_t lowest_free(const uint8_t *owners)
{
    size_t row = 0;
    while (row < EK_LIST_PLACES && owners[row] != EK_ROW_FREE) {
        row++;
    }
    return row;
}

static struct ek_walk taken(struct ek_walk walk, uint8_t rack,
                            struct slot slot, uint64_t *rows, uint8_t *owners)
{
    switch (slot.what) {
    case SILENT:
        return passed(walk);
    case CLASHED:
        if (walk.level == LEVELS - 1) {
            return ended(walk, EK_WALK_TWINS);
        }
        walk.marks[walk.level] |= (uint16_t)(1u << walk.slot);
        return passed(walk);
    default: {
        size_t row = lowest_free(owners);
        if (walk.count == EK_RACK_ROWS_MAX || row == EK_LIST_PLACES) {
            return ended(walk, EK_WALK_FULL);
        }
        rows[row] = slot.uid;
        owners[row] = rack;
        walk.count++;
        return passed(walk);
    }
    }
}

static struct heard hear(struct ek_walk walk, uint32_t rack, enum kind kind,
                         const uint8_t *bytes, size_t length, uint64_t *rows,
                         size_t places, uint8_t *owners, size_t marks)
{
    struct heard heard = {walk,
                          shared_refusal(walk, rack, places, owners, marks)};
    if (heard.number == 0) {
        heard.walk = taken(walk, (uint8_t)rack,
                           judged(walk, kind, bytes, length), rows, owners);
    }
    return heard;
}

int64_t plain_shared_start(struct ek_walk *walk, uint32_t rack,
                           uint16_t family, uint8_t *owners, size_t marks)
{
    if (rack >= RACKS) {
        return EK_REFUSED_RACK;
    }
    if (marks < EK_LIST_PLACES || !are_marks(shared_by(owners))) {
        return EK_REFUSED_LIST;
    }
    for (size_t i = 0; i < EK_LIST_PLACES; i++) {
        if (owners[i] == rack) {
            owners[i] = EK_ROW_FREE;
        }
    }
    plain_walk_start(walk, family);
    return 0;
}

int64_t plain_shared_hear_silence(struct ek_walk *walk, uint32_t rack,
                                  uint64_t *rows, size_t places,
                                  uint8_t *owners, size_t marks)
{
    return in_place(walk, hear(*walk, rack, SILENCE, NULL, 0, rows, places,
                               owners, marks));
}

int64_t plain_shared_hear_clash(struct ek_walk *walk, uint32_t rack,
                                uint64_t *rows, size_t places, uint8_t *owners,
                                size_t marks)
{
    return in_place(walk, hear(*walk, rack, CLASH, NULL, 0, rows, places,
                               owners, marks));
}

int64_t plain_shared_hear_bytes(struct ek_walk *walk, uint32_t rack,
                                const uint8_t *bytes, size_t length,
                                uint64_t *rows, size_t places, uint8_t *owners,
                                size_t marks)
{
    return in_place(walk, hear(*walk, rack, BYTES, bytes, length, rows, places,
                               owners, marks));
}

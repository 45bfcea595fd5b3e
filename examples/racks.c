/*
 * An arm with a rack on each side, and one list of 64 rows for both. The tags
 * of both racks are played here, and two walks take turns, slot by slot. Then
 * what is refused.
 */
#include <inttypes.h>
#include <stdio.h>
#include <stdlib.h>
#include <string.h>

#include "espenknoten.h"

#define RACKS 2

/* No rack here has more tags. */
#define TAGS (EK_RACK_ROWS_MAX + 1)

/* A longer list of UIDs is not printed. */
#define PRINTED 16

/* Stands past the rows and the marks, where no call may write. */
#define ROW_FENCE UINT64_C(0xA5A5A5A5A5A5A5A5)
#define MARK_FENCE 0xA5

/* All that the board keeps: a walk for each rack, and one list for both. */
static struct {
    struct ek_walk walks[RACKS];
    uint64_t rows[EK_LIST_PLACES + 1];
    uint8_t owners[EK_LIST_PLACES + 1];
} arm, before;

/* Tags of one block of one byte: an inventory asks for no more. */
static struct {
    uint8_t record[EK_CARD_RECORD];
    uint8_t memory[1], locks[1];
} tags[RACKS][TAGS];
static size_t counts[RACKS];

/* What one tag alone has answered. */
static uint8_t heard[EK_CARD_ROOM(1, 1)];
static size_t heard_length;

static void must(bool holds, const char *what)
{
    if (!holds) {
        fprintf(stderr, "racks: %s\n", what);
        exit(1);
    }
}

static void put_tags(uint32_t rack, const uint64_t *uids, size_t count)
{
    must(count <= TAGS, "too many tags");
    for (size_t i = 0; i < count; i++) {
        ek_card_new(tags[rack][i].record, uids[i], 1, 1);
    }
    counts[rack] = count;
}

/* A request, or a slot mark, reaches the tags of a rack. Returns how many
 * answer; where one does, its answer is heard. */
static unsigned send(uint32_t rack, const uint8_t *request, int64_t length)
{
    uint8_t answer[sizeof heard];
    unsigned answering = 0;
    for (size_t i = 0; i < counts[rack]; i++) {
        uint8_t *record = tags[rack][i].record;
        uint8_t *memory = tags[rack][i].memory;
        uint8_t *locks = tags[rack][i].locks;
        int64_t said =
            length == EK_SEND_MARK
                ? ek_card_mark(record, EK_CARD_RECORD, memory, 1, locks, 1,
                               answer, sizeof answer)
                : ek_card_frame(record, EK_CARD_RECORD, request,
                                (size_t)length, memory, 1, locks, 1, answer,
                                sizeof answer);
        must(said >= 0, "a tag's buffers were refused");
        if (said > 0) {
            answering++;
            heard_length = (size_t)said;
            memcpy(heard, answer, heard_length);
        }
    }
    return answering;
}

static void start(uint32_t rack)
{
    must(ek_shared_start(&arm.walks[rack], rack, EK_WALK_NO_FAMILY, arm.owners,
                         EK_LIST_PLACES) == 0,
         "a start was refused");
}

/* A slot of a rack: what its walk asks for is sent, and what comes back is
 * heard. Returns false if the walk has ended. */
static bool slot(uint32_t rack)
{
    struct ek_walk *walk = &arm.walks[rack];
    uint8_t request[EK_REQUEST_MAX];
    int64_t n = ek_walk_ask(walk, request, sizeof request);
    must(n >= 0, "a walk was refused");
    if (n == EK_SEND_NOTHING) {
        return false;
    }
    switch (send(rack, request, n)) {
    case 0:
        n = ek_shared_hear_silence(walk, rack, arm.rows, EK_LIST_PLACES,
                                   arm.owners, EK_LIST_PLACES);
        break;
    case 1:
        n = ek_shared_hear_bytes(walk, rack, heard, heard_length, arm.rows,
                                 EK_LIST_PLACES, arm.owners, EK_LIST_PLACES);
        break;
    default:
        n = ek_shared_hear_clash(walk, rack, arm.rows, EK_LIST_PLACES,
                                 arm.owners, EK_LIST_PLACES);
        break;
    }
    must(n == 0, "a slot was refused");
    return true;
}

/* Both walks to their end, a slot of rack 0 and a slot of rack 1 in turn. A
 * walk that has ended stays as it is. */
static void in_turn(void)
{
    bool first, second;
    do {
        first = slot(0);
        second = slot(1);
    } while (first || second);
    must(arm.rows[EK_LIST_PLACES] == ROW_FENCE &&
             arm.owners[EK_LIST_PLACES] == MARK_FENCE,
         "a place past the list was written");
}

static const char *ending(const struct ek_walk *walk)
{
    switch (walk->ending) {
    case EK_WALK_RUNNING:
        return "running";
    case EK_WALK_COMPLETE:
        return "complete";
    case EK_WALK_TWINS:
        return "twins";
    case EK_WALK_FULL:
        return "full";
    default:
        return "overrun";
    }
}

/* How often a UID stands in a rack's list. */
static unsigned listed(uint32_t rack, uint64_t uid)
{
    unsigned times = 0;
    for (size_t i = 0; i < EK_LIST_PLACES; i++) {
        times += arm.owners[i] == rack && arm.rows[i] == uid;
    }
    return times;
}

/* A rack's walk and its list, by rows. */
static void show_rack(uint32_t rack)
{
    const struct ek_walk *walk = &arm.walks[rack];
    printf("rack %u: %s, rounds %u, rows %u\n", (unsigned)rack, ending(walk),
           (unsigned)walk->rounds, (unsigned)walk->count);
    for (size_t i = 0; i < EK_LIST_PLACES && counts[rack] < PRINTED; i++) {
        if (arm.owners[i] == rack) {
            printf("row %2u: %016" PRIX64 "\n", (unsigned)i, arm.rows[i]);
        }
    }
    for (size_t i = 0; walk->ending == EK_WALK_COMPLETE && i < counts[rack];
         i++) {
        must(listed(rack, ek_card_uid(tags[rack][i].record)) == 1,
             "a tag is not listed, or twice");
    }
}

/* A sign for each row: its rack, or a dot where it is free. */
static void show_marks(void)
{
    char signs[EK_LIST_PLACES + 1] = {0};
    for (size_t i = 0; i < EK_LIST_PLACES; i++) {
        signs[i] = arm.owners[i] == EK_ROW_FREE ? '.'
                   : arm.owners[i] == 0         ? '0'
                                                : '1';
    }
    printf("marks %s\n", signs);
}

static void show(void)
{
    show_rack(0);
    show_rack(1);
    show_marks();
}

/* A list that no rack owns a row of. */
static void empty_list(void)
{
    for (size_t i = 0; i <= EK_LIST_PLACES; i++) {
        arm.rows[i] = ROW_FENCE;
    }
    memset(arm.owners, EK_ROW_FREE, EK_LIST_PLACES);
    arm.owners[EK_LIST_PLACES] = MARK_FENCE;
}

/*
 * One UID stands on both racks: two tags here, each of which hears its own rack
 * alone.
 */
static void two_racks(void)
{
    static const uint64_t left[] = {UINT64_C(0xE004010000000011),
                                    UINT64_C(0xE004010000000021),
                                    UINT64_C(0xE004010000000005)};
    static const uint64_t right[] = {UINT64_C(0xE004010000000021),
                                     UINT64_C(0xE004010000000043),
                                     UINT64_C(0xE004010000000003),
                                     UINT64_C(0xE00401000000000C)};
    printf("two racks in turn, 0021 on both\n");
    put_tags(0, left, 3);
    put_tags(1, right, 4);
    start(0);
    start(1);
    in_turn();
    show();
}

/* Rack 1 gets other tags while rack 0 walks. Its start frees its own rows, and
 * both racks use them again. */
static void anew(void)
{
    static const uint64_t left[] = {UINT64_C(0xE004010000000011),
                                    UINT64_C(0xE004010000000032),
                                    UINT64_C(0xE004010000000005),
                                    UINT64_C(0xE004010000000076),
                                    UINT64_C(0xE00401000000001A),
                                    UINT64_C(0xE00401000000002B)};
    static const uint64_t right[] = {UINT64_C(0xE004010000000050),
                                     UINT64_C(0xE004010000000058)};
    printf("rack 0 anew with six tags, ten slots\n");
    put_tags(0, left, 6);
    start(0);
    for (int i = 0; i < 10; i++) {
        slot(0);
    }
    show();
    printf("rack 1 anew while rack 0 walks\n");
    put_tags(1, right, 2);
    memcpy(&before, &arm, sizeof arm);
    start(1);
    must(memcmp(&before.walks[0], &arm.walks[0], sizeof arm.walks[0]) == 0,
         "a start changed the other walk");
    must(memcmp(before.rows, arm.rows, sizeof arm.rows) == 0,
         "a start changed a row");
    show_marks();
    in_turn();
    show();
}

static void alike(void)
{
    static const uint64_t twins[] = {UINT64_C(0xE004010000000011),
                                     UINT64_C(0xE004010000000007),
                                     UINT64_C(0xE004010000000011)};
    printf("two alike on rack 0\n");
    put_tags(0, twins, 3);
    start(0);
    in_turn();
    show();
}

/* A rack is full at 40 rows, and the other has the 24 that are left: 25 tags of
 * it are listed only when rows of the first are free. */
static void full(void)
{
    uint64_t left[TAGS], right[TAGS];
    for (unsigned i = 0; i < TAGS; i++) {
        left[i] = UINT64_C(0xE004010000000000) + 37 * i;
        right[i] = UINT64_C(0xE004010000001000) + 41 * i;
    }
    printf("41 tags on rack 0, none on rack 1\n");
    put_tags(0, left, 41);
    put_tags(1, NULL, 0);
    start(0);
    start(1);
    in_turn();
    show();
    printf("24 tags on rack 1\n");
    put_tags(1, right, 24);
    start(1);
    in_turn();
    show();
    printf("25 tags on rack 1\n");
    put_tags(1, right, 25);
    start(1);
    in_turn();
    show();
    printf("3 tags on rack 0, and both anew\n");
    put_tags(0, left, 3);
    start(0);
    start(1);
    in_turn();
    show();
}

/* ---- what is refused */

/* A refusal leaves both walks, every row and every mark as they are. */
static void refused(const char *name, int64_t answer, int64_t number)
{
    must(answer == number, name);
    must(memcmp(&before, &arm, sizeof arm) == 0, "a refusal changed a byte");
    printf("%s: %" PRId64 ", nothing changed\n", name, answer);
}

static int64_t started(uint32_t rack, size_t marks)
{
    memcpy(&before, &arm, sizeof arm);
    return ek_shared_start(&arm.walks[0], rack, EK_WALK_NO_FAMILY, arm.owners,
                           marks);
}

static int64_t slot_heard(uint32_t rack, size_t places, size_t marks)
{
    memcpy(&before, &arm, sizeof arm);
    return ek_shared_hear_silence(&arm.walks[0], rack, arm.rows, places,
                                  arm.owners, marks);
}

static void refusals(void)
{
    struct ek_walk *walk = &arm.walks[0];

    /* The walk of rack 0 has ended. */
    refused("hearing after an ending",
            slot_heard(0, EK_LIST_PLACES, EK_LIST_PLACES), EK_REFUSED_ENDED);
    refused("rack 2 started", started(2, EK_LIST_PLACES), EK_REFUSED_RACK);
    refused("63 marks started", started(0, EK_LIST_PLACES - 1),
            EK_REFUSED_LIST);
    arm.owners[63] = RACKS;
    refused("mark 2 started", started(0, EK_LIST_PLACES), EK_REFUSED_LIST);
    arm.owners[63] = EK_ROW_FREE;

    start(0);
    refused("rack 2 heard", slot_heard(2, EK_LIST_PLACES, EK_LIST_PLACES),
            EK_REFUSED_RACK);
    walk->slot = 16;
    refused("slot 16 heard", slot_heard(0, EK_LIST_PLACES, EK_LIST_PLACES),
            EK_REFUSED_WALK);
    walk->slot = 0;
    refused("63 rows heard", slot_heard(0, EK_LIST_PLACES - 1, EK_LIST_PLACES),
            EK_REFUSED_LIST);
    refused("63 marks heard",
            slot_heard(0, EK_LIST_PLACES, EK_LIST_PLACES - 1),
            EK_REFUSED_LIST);
    arm.owners[63] = RACKS;
    refused("mark 2 heard", slot_heard(0, EK_LIST_PLACES, EK_LIST_PLACES),
            EK_REFUSED_LIST);
    arm.owners[63] = 0;
    refused("a row more than is counted",
            slot_heard(0, EK_LIST_PLACES, EK_LIST_PLACES), EK_REFUSED_WALK);
    arm.owners[63] = EK_ROW_FREE;

    /* Rack 0 can't be heard as long as rack 1 owns too many; started anew, rack
     * 1 owns none. */
    memset(arm.owners, 1, EK_RACK_ROWS_MAX + 1);
    memset(arm.owners + EK_RACK_ROWS_MAX + 1, EK_ROW_FREE,
           EK_LIST_PLACES - (EK_RACK_ROWS_MAX + 1));
    refused("41 rows of rack 1", slot_heard(0, EK_LIST_PLACES, EK_LIST_PLACES),
            EK_REFUSED_WALK);
    start(1);
    show_marks();
    must(slot_heard(0, EK_LIST_PLACES, EK_LIST_PLACES) == 0,
         "a slot was refused");
}

int main(void)
{
    empty_list();
    two_racks();
    anew();
    alike();
    full();
    refusals();
    must(fflush(stdout) == 0, "standard output can't be written");
    return 0;
}

/*
 * How much stack the calls take. Each call runs on a stack of its own that was
 * painted before; the lowest byte that has changed tells how deep it went. The
 * greatest depth of all calls is printed, in bytes, and then that of ek_check.
 */
#define _XOPEN_SOURCE 700
#include <stdio.h>
#include <stdlib.h>
#include <string.h>
#include <ucontext.h>

#include "espenknoten.h"

#define STACK 16384
#define PAINT 0xA5

static uint8_t stack[STACK];
static const uint8_t *entered; /* where the call's caller stands on it */
static ucontext_t outside, inside;
static void (*call)(void);

static uint8_t record[EK_CARD_RECORD];
static uint8_t memory[EK_CARD_BLOCKS_MAX * EK_CARD_SIZE_MAX];
static uint8_t locks[EK_CARD_BLOCKS_MAX];
static uint8_t answer[EK_CARD_ROOM(EK_CARD_BLOCKS_MAX, EK_CARD_SIZE_MAX)];
static uint8_t frame[EK_FRAME_MAX];
static size_t length;
static uint8_t coding;
static uint8_t track[EK_TRACK_MAX];
static struct ek_walk walk;
static uint64_t list[EK_LIST_PLACES];
static uint8_t owners[EK_LIST_PLACES];
static uint8_t request[EK_REQUEST_MAX];
static struct ek_request asked;
static uint8_t blocks[sizeof memory];
static uint8_t read_locks[sizeof locks];
static uint8_t coil_answer[EK_ANSWER_MAX];
static uint8_t coil_track[EK_COIL_TRACK_MAX];
static int64_t back;

static void enter(void)
{
    volatile uint8_t here = 0;
    entered = (const uint8_t *)&here;
    call();
}

/* The depth of a call, from the frame of its caller on. */
static size_t depth(void (*what)(void))
{
    size_t untouched = 0;
    call = what;
    memset(stack, PAINT, sizeof stack);
    if (getcontext(&inside) != 0) {
        exit(1);
    }
    inside.uc_stack.ss_sp = stack;
    inside.uc_stack.ss_size = sizeof stack;
    inside.uc_link = &outside;
    makecontext(&inside, enter, 0);
    if (swapcontext(&outside, &inside) != 0) {
        exit(1);
    }
    while (untouched < sizeof stack && stack[untouched] == PAINT) {
        untouched++;
    }
    return (size_t)(entered - stack) - untouched;
}

static void version(void) { back = ek_version(); }
static void check(void) { back = ek_check(frame, length); }
static void is_sound(void) { back = ek_is_sound(frame, length); }
static void seal(void) { back = ek_seal(frame, sizeof frame, length); }

static void code(void)
{
    back = ek_code(frame, length, coding, track, sizeof track);
}

static void decode(void)
{
    back = ek_decode(track, (size_t)back, frame, sizeof frame);
}

static void card_frame(void)
{
    back = ek_card_frame(record, sizeof record, frame, length, memory,
                         sizeof memory, locks, sizeof locks, answer,
                         sizeof answer);
}

static void card_mark(void)
{
    back = ek_card_mark(record, sizeof record, memory, sizeof memory, locks,
                        sizeof locks, answer, sizeof answer);
}

static void card_power_off(void)
{
    back = ek_card_power_off(record, sizeof record, memory, sizeof memory,
                             locks, sizeof locks, answer, sizeof answer);
}

static void walk_start(void) { ek_walk_start(&walk, EK_WALK_NO_FAMILY); }

static void walk_ask(void)
{
    back = ek_walk_ask(&walk, request, sizeof request);
}

static void walk_hear_silence(void)
{
    back = ek_walk_hear_silence(&walk, list, EK_LIST_PLACES);
}

static void walk_hear_clash(void)
{
    back = ek_walk_hear_clash(&walk, list, EK_LIST_PLACES);
}

static void walk_hear_bytes(void)
{
    back = ek_walk_hear_bytes(&walk, frame, length, list, EK_LIST_PLACES);
}

static void shared_start(void)
{
    back = ek_shared_start(&walk, 0, EK_WALK_NO_FAMILY, owners, sizeof owners);
}

static void shared_hear_silence(void)
{
    back = ek_shared_hear_silence(&walk, 0, list, EK_LIST_PLACES, owners,
                                  sizeof owners);
}

static void shared_hear_clash(void)
{
    back = ek_shared_hear_clash(&walk, 0, list, EK_LIST_PLACES, owners,
                                sizeof owners);
}

static void shared_hear_bytes(void)
{
    back = ek_shared_hear_bytes(&walk, 0, frame, length, list, EK_LIST_PLACES,
                                owners, sizeof owners);
}

static void make(void)
{
    back = ek_make(asked, memory, EK_CARD_SIZE_MAX, frame, sizeof frame);
}

static void read_answer(void)
{
    back = ek_read(asked, answer, length, blocks, sizeof blocks, read_locks,
                   sizeof read_locks)
               .answer;
}

static void coil_code(void)
{
    back = ek_coil_code(coil_answer, length, coil_track, sizeof coil_track);
}

static void coil_decode(void)
{
    back = ek_coil_decode(coil_track, length, coil_answer, sizeof coil_answer);
}

static size_t most;

static void measure(void (*what)(void))
{
    size_t found = depth(what);
    if (back < 0) {
        fprintf(stderr, "stack: a call was refused: %d\n", (int)back);
        exit(1);
    }
    if (found > most) {
        most = found;
    }
}

/* The check of all lengths of a frame. */
static void checks(void)
{
    for (length = 0; length <= EK_FRAME_MAX; length++) {
        measure(check);
    }
}

/* Frames of all lengths, and their tracks in both codings. */
static void tracks(void)
{
    for (size_t n = 0; n + 2 <= EK_FRAME_MAX; n++) {
        for (coding = EK_ONE_OF_4; coding <= EK_ONE_OF_256; coding++) {
            length = n;
            measure(seal);
            length = n + 2;
            measure(is_sound);
            measure(code);
            measure(decode);
        }
    }
}

/* Every command, plain, selected, addressed and with Option, with bodies of
 * none to two bytes and that of a write; and inventories with and without a
 * family, in one slot and in sixteen. After each a mark and a power off. */
static void card(void)
{
    static const uint8_t flags[] = {
        0, EK_FLAG_SELECT, EK_FLAG_ADDRESS, EK_FLAG_OPTION,
        EK_FLAG_ADDRESS | EK_FLAG_OPTION, EK_FLAG_INVENTORY,
        EK_FLAG_INVENTORY | EK_FLAG_AFI, EK_FLAG_INVENTORY | EK_FLAG_ONE_SLOT};
    static const size_t bodies[] = {0, 1, 2, 1 + EK_CARD_SIZE_MAX};
    for (size_t f = 0; f < sizeof flags; f++) {
        for (unsigned command = 0; command < 0x30; command++) {
            for (size_t b = 0; b < sizeof bodies / sizeof *bodies; b++) {
                bool addressed = (flags[f] & EK_FLAG_INVENTORY) == 0 &&
                                 (flags[f] & EK_FLAG_ADDRESS) != 0;
                ek_card_new(record, 0, EK_CARD_BLOCKS_MAX, EK_CARD_SIZE_MAX);
                memset(frame, 0, sizeof frame);
                frame[0] = flags[f];
                frame[1] = (uint8_t)command;
                length = 2 + bodies[b] + (addressed ? 8 : 0);
                back = ek_seal(frame, sizeof frame, length);
                length = (size_t)back;
                measure(card_frame);
                measure(card_mark);
                measure(card_power_off);
            }
        }
    }
}

/* A clash in the slot of each level down to twins, a clean reply, one whose UID
 * does not begin with E0, silence. */
static void walk_down(void (*silence)(void), void (*clash)(void),
                      void (*bytes)(void))
{
    while (walk.ending == EK_WALK_RUNNING) {
        measure(walk_ask);
        if (walk.slot == 0) {
            measure(clash);
        } else if (walk.slot < 3) {
            uint64_t first = walk.slot == 1 ? 0xE0 : 0xD0;
            memset(frame, 0, sizeof frame);
            ek_put_number(frame + EK_INVENTORY_UID, 8,
                          first << 56 | ek_walk_mask(&walk) |
                              (uint64_t)walk.slot << (4 * walk.level));
            back = ek_seal(frame, sizeof frame, EK_INVENTORY_CHECK);
            length = (size_t)back;
            measure(bytes);
        } else {
            measure(silence);
        }
    }
    if (walk.ending != EK_WALK_TWINS || walk.count != EK_WALK_LEVELS - 1) {
        exit(1);
    }
}

/* With a list for itself, and over one where the other rack owns many rows. */
static void walks(void)
{
    measure(walk_start);
    walk_down(walk_hear_silence, walk_hear_clash, walk_hear_bytes);
    memset(owners, EK_ROW_FREE, sizeof owners);
    memset(owners, 0, 24);
    memset(owners + 24, 1, EK_RACK_ROWS_MAX);
    measure(shared_start);
    walk_down(shared_hear_silence, shared_hear_clash, shared_hear_bytes);
}

/* Every command in every mode, with Option and without, made; and what the
 * largest card answers to it read, to 23 with all of its blocks. */
static void reader(void)
{
    for (unsigned command = 0x20; command <= 0x2C; command++) {
        for (unsigned mode = EK_TO_ALL; mode <= EK_TO_SELECTED; mode++) {
            for (unsigned option = 0; option < 2; option++) {
                if (command == 0x24 || (command == EK_COMMAND_SELECT &&
                                        mode != EK_TO_UID)) {
                    continue;
                }
                memset(&asked, 0, sizeof asked);
                memset(locks, 0, sizeof locks);
                asked.command = (uint8_t)command;
                asked.size = EK_CARD_SIZE_MAX;
                asked.mode = (uint8_t)mode;
                asked.option = (uint8_t)option;
                asked.n = 255;
                ek_card_new(record, 0, EK_CARD_BLOCKS_MAX, EK_CARD_SIZE_MAX);
                record[EK_CARD_MODE] = EK_MODE_SELECTED;
                measure(make);
                length = (size_t)back;
                card_frame();
                if (back == 0) { /* held */
                    card_mark();
                }
                length = (size_t)back;
                measure(read_answer);
            }
        }
    }
}

/* Answers of many lengths to the longest: read back, lost and clashing. */
static void coil(void)
{
    for (size_t n = EK_ANSWER_MIN; n <= EK_ANSWER_MAX; n += 24) {
        length = n;
        measure(coil_code);
        length = (size_t)back;
        measure(coil_decode);
        coil_track[length - 2] = 0;
        measure(coil_decode);
        coil_track[length - 2] = 0xFF;
        measure(coil_decode);
    }
}

int main(void)
{
    checks();
    size_t most_of_check = most;
    measure(version);
    tracks();
    card();
    walks();
    reader();
    coil();
    printf("%u %u\n", (unsigned)most, (unsigned)most_of_check);
    return 0;
}

/*
 * The header held to the library: every constant, macro and inline function of
 * espenknoten.h against what the archive does. A place of the record is held by
 * reading back what a card shows of it, a limit by meeting and passing it, a
 * refusal by provoking it in its order. tools/check-c sees that every name of
 * the header stands here, and that each constant one greater is found out.
 */
#include <stdio.h>
#include <stdlib.h>
#include <string.h>

#include "espenknoten.h"

#if EK_VERSION < 65536
#error "EK_VERSION is no number for the preprocessor"
#endif

#define UID UINT64_C(0xE004010203040506)
/* Every UID begins so. */
#define E0 UINT64_C(0xE000000000000000)
#define BLOCKS 4
#define SIZE 3

/* Where the body of an answer begins, after its flags. */
#define BODY 1

static uint8_t record[EK_CARD_RECORD + 1];
static uint8_t memory[(EK_CARD_BLOCKS_MAX + 1) * (EK_CARD_SIZE_MAX + 1)];
static uint8_t locks[EK_CARD_BLOCKS_MAX + 1];
static uint8_t answer[EK_CARD_ROOM(EK_CARD_BLOCKS_MAX, EK_CARD_SIZE_MAX)];
static size_t blocks = BLOCKS;
static size_t size = SIZE;

#define MUST(holds) must(holds, #holds, __LINE__)

static void must(bool holds, const char *what, int line)
{
    if (!holds) {
        fprintf(stderr, "header.c:%d: not so: %s\n", line, what);
        exit(1);
    }
}

/* ---- the card's calls, over the buffers above */

static void new_card(void)
{
    blocks = BLOCKS;
    size = SIZE;
    ek_card_new(record, UID, BLOCKS, SIZE);
    record[EK_CARD_AFI] = 0xAF;
    record[EK_CARD_DSFID] = 0xD5;
    record[EK_CARD_IC] = 0x1C;
    memset(locks, 0, sizeof locks);
    for (size_t i = 0; i < sizeof memory; i++) {
        memory[i] = (uint8_t)(i + 1);
    }
}

/* A message of so many bytes reaches the card, with its check. */
static int64_t say(const uint8_t *message, size_t length)
{
    uint8_t frame[EK_FRAME_MAX];
    memcpy(frame, message, length);
    int64_t sealed = ek_seal(frame, sizeof frame, length);
    MUST(sealed == (int64_t)length + 2);
    return ek_card_frame(record, EK_CARD_RECORD, frame, (size_t)sealed, memory,
                         blocks * size, locks, blocks, answer, sizeof answer);
}

#define SAY(...)                                                               \
    say((const uint8_t[]){__VA_ARGS__}, sizeof((const uint8_t[]){__VA_ARGS__}))

static int64_t mark(void)
{
    return ek_card_mark(record, EK_CARD_RECORD, memory, blocks * size, locks,
                        blocks, answer, sizeof answer);
}

static int64_t power_off(void)
{
    return ek_card_power_off(record, EK_CARD_RECORD, memory, blocks * size,
                             locks, blocks, answer, sizeof answer);
}

/* Whether the card said no more than success, or just this error. */
static bool success(int64_t said)
{
    return said == 3 && answer[0] == EK_ANSWER_SUCCESS;
}

static bool error(int64_t said, uint8_t code)
{
    return said == 4 && answer[0] == EK_ANSWER_ERROR && answer[1] == code;
}

/* ---- version, tracks, refusals of the first calls */

static void version(void)
{
    MUST(ek_version() == EK_VERSION);
    MUST(ek_version() >> 16 == EK_VERSION_MAJOR);
    MUST((ek_version() >> 8 & 0xFF) == EK_VERSION_MINOR);
    MUST((ek_version() & 0xFF) == EK_VERSION_PATCH);
}

static void tracks(void)
{
    uint8_t frame[EK_FRAME_MAX + 1] = {0};
    uint8_t back[EK_FRAME_MAX];
    static uint8_t track[EK_TRACK_MAX];
    static const size_t longest[] = {EK_TRACK_MAX_ONE_OF_4,
                                     EK_TRACK_MAX_ONE_OF_256};
    MUST(EK_TRACK_MAX == longest[EK_ONE_OF_256]);
    for (uint8_t coding = EK_ONE_OF_4; coding <= EK_ONE_OF_256; coding++) {
        for (size_t n = 0; n <= EK_FRAME_MAX; n++) {
            size_t length = coding == EK_ONE_OF_4 ? EK_TRACK_ONE_OF_4(n)
                                                  : EK_TRACK_ONE_OF_256(n);
            MUST(length <= longest[coding]);
            MUST(ek_code(frame, n, coding, track, length - 1) ==
                 EK_REFUSED_ROOM);
            MUST(ek_code(frame, n, coding, track, length) == (int64_t)length);
            int64_t r = ek_decode(track, length, back, EK_FRAME_MAX);
            MUST(EK_DECODED_KIND(r) == coding && EK_DECODED_LENGTH(r) == n);
            MUST(track[0] == (coding == EK_ONE_OF_4 ? 0x84 : 0x81));
            MUST(track[length - 1] == EK_TRACK_SLOT_MARK);
        }
        MUST(ek_code(frame, EK_FRAME_MAX, coding, track, longest[coding]) ==
             (int64_t)longest[coding]);
        MUST(ek_code(frame, EK_FRAME_MAX + 1, coding, track, sizeof track) ==
             EK_REFUSED_FRAME_OR_CODING);
    }
    const uint8_t slot_mark[] = {EK_TRACK_SLOT_MARK};
    int64_t r = ek_decode(slot_mark, 1, back, EK_FRAME_MAX);
    MUST(EK_DECODED_KIND(r) == EK_SLOT_MARK && EK_DECODED_LENGTH(r) == 0);
}

/* All faults of a call at once, then one fewer each time: the order. */
static void orders_of_tracks(void)
{
    uint8_t frame[EK_FRAME_MAX + 1] = {0};
    uint8_t track[EK_TRACK_ONE_OF_4(1)];
    const uint8_t rubbish[] = {0x84, 0x40, 0x20};
    MUST(ek_seal(frame, 3, 2) == EK_REFUSED_ROOM);
    MUST(ek_seal(frame, 4, 2) == 4);
    MUST(ek_code(frame, EK_FRAME_MAX + 1, EK_ONE_OF_4, track, 0) ==
         EK_REFUSED_FRAME_OR_CODING);
    MUST(ek_code(frame, 1, EK_ONE_OF_256 + 1, track, 0) ==
         EK_REFUSED_FRAME_OR_CODING);
    MUST(ek_code(frame, 1, 256, track, sizeof track) ==
         EK_REFUSED_FRAME_OR_CODING);
    MUST(ek_code(frame, 1, EK_ONE_OF_4, track, sizeof track - 1) ==
         EK_REFUSED_ROOM);
    MUST(ek_code(frame, 1, EK_ONE_OF_4, track, sizeof track) ==
         (int64_t)sizeof track);
    MUST(ek_decode(rubbish, sizeof rubbish, frame, EK_FRAME_MAX - 1) ==
         EK_REFUSED_ROOM);
    MUST(ek_decode(rubbish, sizeof rubbish, frame, EK_FRAME_MAX) ==
         EK_REFUSED_NO_TRACK);
    MUST(ek_decode(track, sizeof track, frame, EK_FRAME_MAX) >= 0);
    frame[0] = 0x02;
    MUST(ek_seal(frame, EK_FRAME_MAX, EK_FRAME_MAX - 2) == EK_FRAME_MAX);
    MUST(ek_is_sound(frame, EK_FRAME_MAX));
    MUST(ek_seal(frame, EK_FRAME_MAX + 1, EK_FRAME_MAX - 1) ==
         EK_FRAME_MAX + 1);
    MUST(!ek_is_sound(frame, EK_FRAME_MAX + 1));
    MUST(ek_check(frame, 0) == 0);
}

/* ---- the card's record */

/* System information and inventory show UID, shape, AFI, DSFID and IC. */
static void shown(void)
{
    new_card();
    MUST(SAY(0x02, EK_COMMAND_GET_SYSTEM_INFORMATION) == 17);
    MUST(answer[0] == EK_ANSWER_SUCCESS && answer[1] == 0x0F);
    MUST(ek_get_number(answer + 2, 8) == UID);
    MUST(answer[10] == 0xD5 && answer[11] == 0xAF);
    MUST(answer[12] == BLOCKS - 1 && answer[13] == SIZE - 1);
    MUST(answer[14] == 0x1C);
    MUST(ek_card_uid(record) == UID);
    MUST(ek_card_blocks(record) == BLOCKS && ek_card_size(record) == SIZE);
    MUST(ek_card_afi(record) == 0xAF && ek_card_dsfid(record) == 0xD5);
    MUST(ek_card_ic(record) == 0x1C);

    MUST(SAY(EK_FLAG_INVENTORY | EK_FLAG_ONE_SLOT, EK_COMMAND_INVENTORY, 0) ==
         EK_INVENTORY_ANSWER);
    MUST(answer[EK_INVENTORY_FLAGS] == EK_ANSWER_SUCCESS);
    MUST(answer[EK_INVENTORY_DSFID] == 0xD5);
    MUST(ek_get_number(answer + EK_INVENTORY_UID, 8) == UID);
    MUST(ek_get_number(answer + EK_INVENTORY_CHECK, 2) ==
         ek_check(answer, EK_INVENTORY_CHECK));
    MUST(EK_INVENTORY_CHECK + 2 == EK_INVENTORY_ANSWER);

    /* By hand: the lowest byte of the UID, and what is over a byte of each. */
    record[EK_CARD_UID] = 0x77;
    MUST(SAY(EK_FLAG_INVENTORY | EK_FLAG_ONE_SLOT, EK_COMMAND_INVENTORY, 8,
             0x77) == EK_INVENTORY_ANSWER);
    MUST(ek_card_uid(record) == ek_get_number(answer + EK_INVENTORY_UID, 8));
    record[EK_CARD_BLOCKS + 3] = 1;
    MUST(ek_card_blocks(record) == BLOCKS + (UINT32_C(1) << 24));
    MUST(mark() == EK_REFUSED_CARD);
    record[EK_CARD_BLOCKS + 3] = 0;
    record[EK_CARD_SIZE + 3] = 1;
    MUST(ek_card_size(record) == SIZE + (UINT32_C(1) << 24));
    MUST(mark() == EK_REFUSED_CARD);
}

/* The largest shape is served and shown; one more of either is refused. */
static void shapes(void)
{
    static const struct {
        uint32_t blocks, size;
    } fit[] = {{1, 1}, {7, 3}, {2, 14}, {29, 1}, {EK_CARD_BLOCKS_MAX, 1},
               {1, EK_CARD_SIZE_MAX}, {EK_CARD_BLOCKS_MAX, EK_CARD_SIZE_MAX}};
    for (size_t i = 0; i < sizeof fit / sizeof *fit; i++) {
        new_card();
        blocks = fit[i].blocks;
        size = fit[i].size;
        ek_card_new(record, UID, fit[i].blocks, fit[i].size);
        MUST(ek_card_blocks(record) == blocks && ek_card_size(record) == size);
        size_t room = EK_CARD_ROOM(blocks, size);
        MUST(ek_card_mark(record, EK_CARD_RECORD, memory, blocks * size, locks,
                          blocks, answer, room) == 0);
        MUST(ek_card_mark(record, EK_CARD_RECORD, memory, blocks * size, locks,
                          blocks, answer, room - 1) == EK_REFUSED_CARD_ROOM);
        MUST(SAY(0x02, EK_COMMAND_GET_SYSTEM_INFORMATION) == 17);
        MUST(answer[12] + 1u == blocks && answer[13] + 1u == size);
    }
    blocks = EK_CARD_BLOCKS_MAX + 1;
    size = 1;
    ek_card_new(record, UID, EK_CARD_BLOCKS_MAX + 1, 1);
    MUST(mark() == EK_REFUSED_CARD);
    blocks = 1;
    size = EK_CARD_SIZE_MAX + 1;
    ek_card_new(record, UID, 1, EK_CARD_SIZE_MAX + 1);
    MUST(mark() == EK_REFUSED_CARD);
    ek_card_new(record, UID, 0, 1);
    MUST(mark() == EK_REFUSED_CARD);
}

/* A new card is Ready, with nothing locked, held or running, and all else 0. */
static void fresh(void)
{
    memset(record, 0xFF, sizeof record);
    ek_card_new(record, 0, BLOCKS, SIZE);
    MUST(record[EK_CARD_RECORD] == 0xFF);
    MUST(ek_card_mode(record) == EK_MODE_READY);
    MUST(ek_card_held(record) == EK_HELD_NONE && !ek_card_sequence(record));
    MUST(!ek_card_afi_locked(record) && !ek_card_dsfid_locked(record));
    record[EK_CARD_BLOCKS] = 0;
    record[EK_CARD_SIZE] = 0;
    for (size_t i = 0; i < EK_CARD_RECORD; i++) {
        MUST(record[i] == 0);
    }
}

static void modes(void)
{
    uint8_t quiet[10] = {EK_FLAG_ADDRESS, EK_COMMAND_STAY_QUIET};
    uint8_t select[10] = {EK_FLAG_ADDRESS, EK_COMMAND_SELECT};
    uint8_t reset[10] = {EK_FLAG_ADDRESS, EK_COMMAND_RESET_TO_READY};
    ek_put_number(quiet + 2, 8, UID);
    ek_put_number(select + 2, 8, UID);
    ek_put_number(reset + 2, 8, UID);
    new_card();
    MUST(say(quiet, sizeof quiet) == 0);
    MUST(record[EK_CARD_MODE] == EK_MODE_QUIET);
    MUST(ek_card_mode(record) == EK_MODE_QUIET);
    MUST(SAY(0x02, EK_COMMAND_READ_SINGLE_BLOCK, 0) == 0);
    MUST(success(say(reset, sizeof reset)));
    MUST(record[EK_CARD_MODE] == EK_MODE_READY);
    MUST(SAY(EK_FLAG_SELECT, EK_COMMAND_READ_SINGLE_BLOCK, 0) == 0);
    MUST(success(say(select, sizeof select)));
    MUST(record[EK_CARD_MODE] == EK_MODE_SELECTED);
    MUST(SAY(EK_FLAG_SELECT, EK_COMMAND_READ_SINGLE_BLOCK, 0) == 3 + SIZE);
    record[EK_CARD_MODE] = 0xEE; /* read as Selected, and written as that */
    MUST(ek_card_mode(record) == EK_MODE_SELECTED);
    MUST(SAY(EK_FLAG_SELECT, EK_COMMAND_READ_SINGLE_BLOCK, 0) == 3 + SIZE);
    MUST(record[EK_CARD_MODE] == EK_MODE_SELECTED);
    MUST(power_off() == 0);
    MUST(ek_card_mode(record) == EK_MODE_READY);
}

/* A mask of one byte calls the card; its slot is the digit above it. */
static void sequence(void)
{
    const uint8_t low = (uint8_t)UID;
    const uint8_t slot = (uint8_t)(UID >> 8) % 16;
    new_card();
    MUST(SAY(EK_FLAG_INVENTORY | EK_FLAG_AFI, EK_COMMAND_INVENTORY, 0xB0, 8,
             low) == 0);
    MUST(!ek_card_sequence(record)); /* another family */
    MUST(SAY(EK_FLAG_INVENTORY | EK_FLAG_AFI, EK_COMMAND_INVENTORY, 0xAF, 8,
             low) == 0);
    for (uint8_t s = 0; s < slot; s++) {
        MUST(ek_card_sequence(record) && record[EK_CARD_SEQUENCE] == 1);
        MUST(record[EK_CARD_SLOT] == s && ek_card_slot(record) == s);
        MUST(mark() == (s + 1 == slot ? EK_INVENTORY_ANSWER : 0));
    }
    MUST(record[EK_CARD_SLOT] == slot);
    MUST(record[EK_CARD_MASK_LENGTH] == 8 && ek_card_mask_length(record) == 8);
    MUST(record[EK_CARD_MASK] == low && ek_card_mask(record) == low);

    /* Each of the three is looked at, and the mask to its eighth byte. */
    record[EK_CARD_SLOT] = 15;
    MUST(mark() == 0 && !ek_card_sequence(record));
    record[EK_CARD_SEQUENCE] = 2;
    record[EK_CARD_MASK_LENGTH] = 60;
    record[EK_CARD_SLOT] = 0xD;
    ek_put_number(record + EK_CARD_MASK, 8, UID % (UINT64_C(1) << 60));
    MUST(ek_card_mask(record) == UID % (UINT64_C(1) << 60));
    MUST(mark() == EK_INVENTORY_ANSWER);
    record[EK_CARD_SLOT] = 16;
    MUST(mark() == EK_REFUSED_CARD);
    record[EK_CARD_SLOT] = 0;
    record[EK_CARD_MASK_LENGTH] = 61;
    MUST(mark() == EK_REFUSED_CARD);
    record[EK_CARD_MASK_LENGTH] = 60;
    record[EK_CARD_MASK + 7] = 0x10;
    MUST(mark() == EK_REFUSED_CARD);
    record[EK_CARD_SEQUENCE] = 0;
    MUST(mark() == 0);
    MUST(record[EK_CARD_MASK + 7] == 0);
}

/* Whether a family calls the card, in one slot as in sixteen. */
static bool calls(unsigned family)
{
    const uint8_t afi = (uint8_t)family;
    int64_t one = SAY(EK_FLAG_INVENTORY | EK_FLAG_AFI | EK_FLAG_ONE_SLOT,
                      EK_COMMAND_INVENTORY, afi, 0);
    MUST(one == 0 || one == EK_INVENTORY_ANSWER);
    MUST(SAY(EK_FLAG_INVENTORY | EK_FLAG_AFI, EK_COMMAND_INVENTORY, afi, 0) ==
         0);
    MUST(ek_card_sequence(record) == (one != 0));
    return one != 0;
}

/* X0 calls the high digit X, 00 every card, 0Y and XY only themselves; so the
 * card's own AFI is never taken for a family. */
static void called(void)
{
    new_card();
    MUST(calls(0xA0) && !calls(0xB0) && !calls(0xF0));
    MUST(!calls(0x0F) && !calls(0x0A));
    MUST(calls(0x00));
    MUST(calls(0xAF) && !calls(0xAE) && !calls(0xBF) && !calls(0xFA));
    record[EK_CARD_AFI] = 0xA0;
    MUST(calls(0xA0) && calls(0x00) && !calls(0xAF));
    record[EK_CARD_AFI] = 0x0F;
    MUST(calls(0x0F) && calls(0x00) && !calls(0xF0));
    record[EK_CARD_AFI] = 0x00;
    MUST(calls(0x00) && !calls(0x0F) && !calls(0xF0));
    MUST(SAY(EK_FLAG_INVENTORY | EK_FLAG_ONE_SLOT, EK_COMMAND_INVENTORY, 0) ==
         EK_INVENTORY_ANSWER); /* no family */
    for (unsigned afi = 0; afi < 256; afi++) {
        record[EK_CARD_AFI] = (uint8_t)afi;
        for (unsigned family = 0; family < 256; family++) {
            bool whole = family % 16 == 0 && family / 16 == afi / 16;
            MUST(calls(family) == (family == 0 || family == afi || whole));
        }
    }
}

/* Each command by what it does, and each error by a request that earns it. The
 * card passes over the two lowest flags, so no name may have them. */
static void commands(void)
{
    MUST(((EK_FLAG_INVENTORY | EK_FLAG_SELECT | EK_FLAG_ADDRESS |
           EK_FLAG_OPTION | EK_FLAG_AFI | EK_FLAG_ONE_SLOT) &
          0x03) == 0);
    new_card();
    MUST(SAY(0x02, EK_COMMAND_READ_SINGLE_BLOCK, 2) == 3 + SIZE);
    MUST(memcmp(answer + BODY, memory + 2 * SIZE, SIZE) == 0);
    MUST(success(SAY(0x02, EK_COMMAND_WRITE_SINGLE_BLOCK, 2, 0xCA, 0xFE, 0)));
    MUST(memory[2 * SIZE] == 0xCA && memory[2 * SIZE + 1] == 0xFE);
    MUST(success(SAY(0x02, EK_COMMAND_LOCK_BLOCK, 2)) && locks[2] == 1);
    MUST(SAY(0x02, EK_COMMAND_READ_MULTIPLE_BLOCKS, 1, 2) == 3 + 3 * SIZE);
    MUST(memcmp(answer + BODY, memory + SIZE, 3 * SIZE) == 0);
    MUST(SAY(EK_FLAG_OPTION, EK_COMMAND_READ_SINGLE_BLOCK, 2) == 4 + SIZE);
    MUST(answer[BODY] == 1);
    MUST(SAY(0x02, EK_COMMAND_GET_MULTIPLE_BLOCK_SECURITY_STATUS, 1, 1) == 5);
    MUST(answer[BODY] == 0 && answer[BODY + 1] == 1);

    MUST(success(SAY(0x02, EK_COMMAND_WRITE_AFI, 0x30)));
    MUST(record[EK_CARD_AFI] == 0x30);
    MUST(success(SAY(0x02, EK_COMMAND_LOCK_AFI)));
    MUST(record[EK_CARD_AFI_LOCKED] == 1 && ek_card_afi_locked(record));
    MUST(!ek_card_dsfid_locked(record));
    MUST(error(SAY(0x02, EK_COMMAND_WRITE_AFI, 0x31), EK_ERROR_LOCKED));
    MUST(success(SAY(0x02, EK_COMMAND_WRITE_DSFID, 0x44)));
    MUST(record[EK_CARD_DSFID] == 0x44);
    MUST(success(SAY(0x02, EK_COMMAND_LOCK_DSFID)));
    MUST(record[EK_CARD_DSFID_LOCKED] == 1 && ek_card_dsfid_locked(record));
    MUST(error(SAY(0x02, EK_COMMAND_LOCK_DSFID), EK_ERROR_RELOCK));

    MUST(error(SAY(0x02, 0x24, 0), EK_ERROR_COMMAND));
    MUST(error(SAY(0x02, EK_COMMAND_READ_SINGLE_BLOCK), EK_ERROR_LENGTH));
    MUST(error(SAY(EK_FLAG_OPTION, EK_COMMAND_RESET_TO_READY),
               EK_ERROR_OPTION));
    MUST(error(SAY(0x02, EK_COMMAND_READ_SINGLE_BLOCK, BLOCKS),
               EK_ERROR_BLOCK));
    MUST(error(SAY(0x02, EK_COMMAND_LOCK_BLOCK, 2), EK_ERROR_RELOCK));
    MUST(error(SAY(0x02, EK_COMMAND_WRITE_SINGLE_BLOCK, 2, 0, 0, 0),
               EK_ERROR_LOCKED));
}

/* With Option the answer is held, and a mark releases it. */
static void held(void)
{
    new_card();
    locks[1] = 1;
    MUST(SAY(EK_FLAG_OPTION, EK_COMMAND_WRITE_AFI, 0x30) == 0);
    MUST(record[EK_CARD_HELD] == EK_HELD_SUCCESS);
    MUST(success(mark()));
    MUST(record[EK_CARD_HELD] == EK_HELD_NONE);
    MUST(SAY(EK_FLAG_OPTION, EK_COMMAND_LOCK_BLOCK) == 0);
    MUST(ek_card_held(record) == EK_ERROR_LENGTH);
    MUST(error(mark(), EK_ERROR_LENGTH));
    MUST(SAY(EK_FLAG_OPTION, EK_COMMAND_LOCK_BLOCK, BLOCKS) == 0);
    MUST(ek_card_held(record) == EK_ERROR_BLOCK);
    MUST(SAY(EK_FLAG_OPTION, EK_COMMAND_LOCK_BLOCK, 1) == 0);
    MUST(ek_card_held(record) == EK_ERROR_RELOCK);
    MUST(SAY(EK_FLAG_OPTION, EK_COMMAND_WRITE_SINGLE_BLOCK, 1, 0, 0, 0) == 0);
    MUST(ek_card_held(record) == EK_ERROR_LOCKED);
    MUST(error(mark(), EK_ERROR_LOCKED));
    for (unsigned b = 0; b < 256; b++) {
        bool good = b == EK_HELD_NONE || b == EK_HELD_SUCCESS ||
                    b == EK_ERROR_LENGTH || b == EK_ERROR_BLOCK ||
                    b == EK_ERROR_RELOCK || b == EK_ERROR_LOCKED;
        record[EK_CARD_HELD] = (uint8_t)b;
        MUST((mark() == EK_REFUSED_CARD) == !good);
    }
}

/* The reserved bytes are left as found; the bytes beside them are not. */
static void reserved(void)
{
    new_card();
    memset(record + EK_CARD_HELD, EK_HELD_SUCCESS,
           EK_CARD_RECORD - EK_CARD_HELD);
    MUST(power_off() == 0);
    MUST(record[EK_CARD_FREE - 1] == 0);
    for (size_t i = EK_CARD_FREE; i < EK_CARD_FREE + 6; i++) {
        MUST(record[i] == EK_HELD_SUCCESS);
    }
    MUST(record[EK_CARD_FREE + 6] == 0);
    MUST(ek_card_mask(record) == 0);
}

/* All four faults at once, then one fewer each time. */
static void orders_of_card(void)
{
    uint8_t before[EK_CARD_RECORD + 1];
    const uint8_t frame[1] = {0};
    static const int64_t order[] = {
        EK_REFUSED_CARD, EK_REFUSED_CARD_LENGTHS, EK_REFUSED_CARD_LENGTHS,
        EK_REFUSED_CARD_LOCK, EK_REFUSED_CARD_ROOM, 0};
    new_card();
    memcpy(before, record, sizeof record);
    for (int mended = 0; mended < 6; mended++) {
        size_t length = mended < 1 ? EK_CARD_RECORD - 1 : EK_CARD_RECORD;
        size_t in_memory = mended < 2 ? BLOCKS * SIZE - 1 : BLOCKS * SIZE;
        size_t in_locks = mended < 3 ? BLOCKS + 1 : BLOCKS;
        size_t room = EK_CARD_ROOM(BLOCKS, SIZE) - (mended < 5);
        locks[1] = mended < 4 ? 2 : 1;
        MUST(ek_card_frame(record, length, frame, sizeof frame, memory,
                           in_memory, locks, in_locks, answer, room) ==
             order[mended]);
        MUST(ek_card_mark(record, length, memory, in_memory, locks, in_locks,
                          answer, room) == order[mended]);
        MUST(ek_card_power_off(record, length, memory, in_memory, locks,
                               in_locks, answer, room) == order[mended]);
        MUST(memcmp(before, record, sizeof record) == 0);
    }
    MUST(ek_card_mark(record, EK_CARD_RECORD + 1, memory, BLOCKS * SIZE, locks,
                      BLOCKS, answer, sizeof answer) == EK_REFUSED_CARD);
}

/* ---- the walk */

static struct ek_walk walk;
static uint64_t list[EK_LIST_PLACES + 1];
static uint8_t request[EK_REQUEST_MAX];

static int64_t ask(void)
{
    return ek_walk_ask(&walk, request, sizeof request);
}

static int64_t silence(void)
{
    return ek_walk_hear_silence(&walk, list, EK_LIST_PLACES);
}

static int64_t clash(void)
{
    return ek_walk_hear_clash(&walk, list, EK_LIST_PLACES);
}

/* What a card of this UID answers. */
static void put_reply(uint8_t *bytes, uint64_t uid)
{
    bytes[EK_INVENTORY_FLAGS] = EK_ANSWER_SUCCESS;
    bytes[EK_INVENTORY_DSFID] = 0xD5;
    ek_put_number(bytes + EK_INVENTORY_UID, 8, uid);
    MUST(ek_seal(bytes, EK_INVENTORY_ANSWER, EK_INVENTORY_CHECK) ==
         EK_INVENTORY_ANSWER);
}

static int64_t reply(uint64_t uid)
{
    uint8_t bytes[EK_INVENTORY_ANSWER];
    put_reply(bytes, uid);
    return ek_walk_hear_bytes(&walk, bytes, sizeof bytes, list, EK_LIST_PLACES);
}

static void put_mask(uint64_t mask)
{
    walk.mask_low = (uint32_t)mask;
    walk.mask_high = (uint32_t)(mask >> 32);
}

/* Every field of a walk, through a clash, its opening, and the end. */
static void fields(void)
{
    struct {
        uint8_t byte;
        struct ek_walk walk;
    } aligned;
    MUST(sizeof walk == 44);
    MUST(sizeof aligned == sizeof walk + sizeof(uint32_t));
    MUST(sizeof walk.marks == EK_WALK_LEVELS * sizeof walk.marks[0]);
    memset(&walk, 0xFF, sizeof walk);
    MUST(ek_walk_mask(&walk) == UINT64_MAX);
    ek_walk_start(&walk, EK_WALK_NO_FAMILY);
    MUST(walk.mask_low == 0 && walk.mask_high == 0);
    MUST(ek_walk_mask(&walk) == 0 && walk.rounds == 1 && walk.level == 0);
    MUST(walk.family == EK_WALK_NO_FAMILY && walk.slot == 0 && walk.count == 0);
    MUST(walk.ending == EK_WALK_RUNNING);
    MUST(ask() == 5 && request[0] == (0x02 | EK_FLAG_INVENTORY));
    MUST(request[1] == EK_COMMAND_INVENTORY && request[2] == 0);
    MUST(silence() == 0 && walk.slot == 1);
    MUST(ask() == EK_SEND_MARK);
    MUST(reply(E0 + 0x11) == 0 && walk.count == 1 && list[0] == E0 + 0x11);
    MUST(clash() == 0 && walk.marks[0] == 1u << 2);
    while (walk.slot != 0) {
        MUST(walk.rounds == 1 && silence() == 0);
    }
    MUST(walk.rounds == 2 && walk.level == 1 && ek_walk_mask(&walk) == 2);
    MUST(walk.marks[0] == 0);
    MUST(ask() == 6 && request[2] == 4 && request[3] == 2);
    while (walk.ending == EK_WALK_RUNNING) {
        MUST(walk.rounds == 2 && silence() == 0);
    }
    MUST(walk.ending == EK_WALK_COMPLETE && walk.slot == 15);
    MUST(ask() == EK_SEND_NOTHING);
}

/* How many UIDs a walk for this family lists where the card is alone. */
static uint8_t found(uint16_t family)
{
    int64_t n;
    new_card();
    ek_walk_start(&walk, family);
    while ((n = ask()) > 0) {
        n = n == EK_SEND_MARK
                ? mark()
                : ek_card_frame(record, EK_CARD_RECORD, request, (size_t)n,
                                memory, blocks * size, locks, blocks, answer,
                                sizeof answer);
        MUST(n == 0 || n == EK_INVENTORY_ANSWER);
        MUST((n == 0 ? silence()
                     : ek_walk_hear_bytes(&walk, answer, (size_t)n, list,
                                          EK_LIST_PLACES)) == 0);
    }
    MUST(n == EK_SEND_NOTHING && walk.ending == EK_WALK_COMPLETE);
    return walk.count;
}

static void families(void)
{
    ek_walk_start(&walk, EK_WALK_NO_FAMILY - 1);
    MUST(walk.family == 0xFF && ask() == 6);
    MUST(request[0] == (0x02 | EK_FLAG_INVENTORY | EK_FLAG_AFI));
    MUST(request[2] == 0xFF && request[3] == 0);
    ek_walk_start(&walk, EK_WALK_NO_FAMILY);
    MUST(ask() == 5);

    /* A walk for A0 lists the card of AFI AF, one for B0 does not. */
    MUST(found(0xA0) == 1 && list[0] == UID);
    MUST(found(0xAF) == 1 && found(0x00) == 1);
    MUST(found(EK_WALK_NO_FAMILY) == 1);
    MUST(found(0xB0) == 0 && found(0xAE) == 0);
}

/* The longest request, and a clash at its level, the last. */
static void deepest(void)
{
    const uint64_t mask = UID % (UINT64_C(1) << 52);
    ek_walk_start(&walk, 0x30);
    walk.level = 13;
    put_mask(mask);
    walk.rounds = 14;
    MUST(ek_walk_mask(&walk) == mask);
    MUST(ek_walk_ask(&walk, request, EK_REQUEST_MAX - 1) == EK_REFUSED_ROOM);
    MUST(ask() == 13);
    MUST(request[3] == 52 && ek_get_number(request + 4, 7) == mask);
    MUST(clash() == 0 && walk.ending == EK_WALK_TWINS);
    walk.ending = EK_WALK_RUNNING;
    walk.level = 12;
    put_mask(mask % (UINT64_C(1) << 48));
    MUST(clash() == 0 && walk.ending == EK_WALK_RUNNING);
    MUST(walk.marks[12] == 1);
}

/* A tag alone in the field whose UID does not begin with E0: a clash at each of
 * the fourteen levels, and twins at the last. The record has its digits. */
static void other_tag(uint64_t uid)
{
    list[0] = UID;
    ek_walk_start(&walk, EK_WALK_NO_FAMILY);
    while (walk.ending == EK_WALK_RUNNING) {
        unsigned bits = 4u * walk.level;
        uint64_t tail = uid % (UINT64_C(1) << bits);
        MUST(walk.rounds == walk.level + 1 && ek_walk_mask(&walk) == tail);
        MUST(walk.mask_low == (uint32_t)tail && walk.mask_high == tail >> 32);
        MUST((walk.slot == (uid >> bits) % 16 ? reply(uid) : silence()) == 0);
    }
    MUST(walk.ending == EK_WALK_TWINS && walk.rounds == EK_WALK_LEVELS);
    MUST(walk.level == 13 && walk.slot == (uid >> 52) % 16);
    MUST(walk.count == 0 && list[0] == UID);
}

/* Every first byte, of a reply that fits mask and slot: at the first level, at
 * the last, and with the list full. */
static void first_bytes(void)
{
    for (unsigned first = 0; first < 256; first++) {
        const uint64_t uid = UID % (UINT64_C(1) << 56) | (uint64_t)first << 56;
        const bool good = first == 0xE0;
        const unsigned slot = UID % 16;
        if (!good) {
            other_tag(uid);
        }
        for (unsigned count = 0; count <= EK_LIST_PLACES;
             count += EK_LIST_PLACES) {
            ek_walk_start(&walk, EK_WALK_NO_FAMILY);
            walk.slot = (uint8_t)slot;
            walk.count = (uint8_t)count;
            list[0] = 0;
            MUST(reply(uid) == 0);
            MUST(walk.marks[0] == (good ? 0 : 1u << slot));
            MUST(walk.count == count + (good && count == 0));
            MUST(list[0] == (good && count == 0 ? uid : 0));
            MUST(walk.ending == (good && count > 0 ? EK_WALK_FULL
                                                   : EK_WALK_RUNNING));
            walk.level = 13;
            walk.slot = (UID >> 52) % 16;
            walk.count = (uint8_t)count;
            walk.ending = EK_WALK_RUNNING;
            put_mask(UID % (UINT64_C(1) << 52));
            MUST(reply(uid) == 0);
            MUST(walk.ending == (!good        ? EK_WALK_TWINS
                                 : count == 0 ? EK_WALK_RUNNING
                                              : EK_WALK_FULL));
        }
    }
}

static void full(void)
{
    ek_walk_start(&walk, EK_WALK_NO_FAMILY);
    list[EK_LIST_PLACES] = UID;
    walk.count = EK_LIST_PLACES - 1;
    MUST(reply(E0 + 0x10) == 0 && walk.ending == EK_WALK_RUNNING);
    MUST(walk.count == EK_LIST_PLACES);
    MUST(list[EK_LIST_PLACES - 1] == E0 + 0x10);
    MUST(reply(E0 + 0x21) == 0 && walk.ending == EK_WALK_FULL);
    MUST(walk.count == EK_LIST_PLACES && list[EK_LIST_PLACES] == UID);
    walk.count = EK_LIST_PLACES + 1;
    MUST(ask() == EK_REFUSED_WALK);
}

/* A clash waits, and the last round is over. */
static void overrun(void)
{
    ek_walk_start(&walk, EK_WALK_NO_FAMILY);
    walk.marks[0] = 1;
    walk.slot = 15;
    walk.rounds = EK_WALK_ROUNDS_MAX - 1;
    MUST(silence() == 0 && walk.rounds == EK_WALK_ROUNDS_MAX);
    MUST(walk.level == 1 && walk.ending == EK_WALK_RUNNING);
    walk.marks[1] = 1;
    walk.slot = 15;
    MUST(silence() == 0 && walk.ending == EK_WALK_OVERRUN);
    MUST(walk.rounds == EK_WALK_ROUNDS_MAX && ask() == EK_SEND_NOTHING);
    walk.rounds = EK_WALK_ROUNDS_MAX + 1;
    MUST(ask() == EK_REFUSED_WALK);
}

/* Whether a record changed so is refused, asked and heard. */
static bool no_walk(struct ek_walk wrong)
{
    struct ek_walk before = wrong;
    walk = wrong;
    return ask() == EK_REFUSED_WALK && silence() == EK_REFUSED_WALK &&
           clash() == EK_REFUSED_WALK && reply(UID) == EK_REFUSED_WALK &&
           memcmp(&walk, &before, sizeof walk) == 0;
}

static void orders_of_walk(void)
{
    struct ek_walk good, wrong;
    const uint8_t bytes[1] = {0};
    ek_walk_start(&good, EK_WALK_NO_FAMILY);
    for (unsigned value = 0; value < 256; value++) {
        wrong = good;
        wrong.level = (uint8_t)value;
        MUST(no_walk(wrong) == (value > 13));
        wrong = good;
        wrong.slot = (uint8_t)value;
        MUST(no_walk(wrong) == (value > 15));
    }
    for (unsigned level = 0; level < EK_WALK_LEVELS; level++) {
        for (unsigned bit = 0; bit < 64; bit++) {
            wrong = good;
            wrong.level = (uint8_t)level;
            wrong.mask_low = bit < 32 ? UINT32_C(1) << bit : 0;
            wrong.mask_high = bit < 32 ? 0 : UINT32_C(1) << (bit - 32);
            MUST(no_walk(wrong) == (bit >= 4 * level));
        }
        for (unsigned marked = 0; marked < EK_WALK_LEVELS; marked++) {
            wrong = good;
            wrong.level = (uint8_t)level;
            wrong.marks[marked] = 1;
            MUST(no_walk(wrong) == (marked > level || marked == 13));
        }
    }
    wrong = good;
    wrong.rounds = 0;
    MUST(no_walk(wrong));
    good.level = 12;
    good.marks[12] = 1;
    MUST(!no_walk(good));

    /* 10, 6, 5 to hear; 10, 8 to ask. */
    walk = good;
    walk.slot = 16;
    walk.ending = EK_WALK_COMPLETE;
    for (int mended = 0; mended < 4; mended++) {
        static const int64_t order[] = {EK_REFUSED_WALK, EK_REFUSED_ENDED,
                                        EK_REFUSED_LIST, 0};
        size_t places = mended < 3 ? EK_LIST_PLACES - 1 : EK_LIST_PLACES;
        walk.slot = mended < 1 ? 16 : 0;
        walk.ending = mended < 2 ? EK_WALK_OVERRUN : EK_WALK_RUNNING;
        MUST(ek_walk_hear_silence(&walk, list, places) == order[mended]);
        walk.slot = mended < 1 ? 16 : 0;
        MUST(ek_walk_hear_clash(&walk, list, places) == order[mended]);
        walk.slot = mended < 1 ? 16 : 0;
        MUST(ek_walk_hear_bytes(&walk, bytes, 1, list, places) ==
             order[mended]);
    }
    walk = good;
    walk.slot = 16;
    MUST(ek_walk_ask(&walk, request, 0) == EK_REFUSED_WALK);
    walk.slot = 0;
    MUST(ek_walk_ask(&walk, request, 0) == EK_REFUSED_ROOM);
    walk.slot = 1;
    MUST(ek_walk_ask(&walk, request, 0) == EK_SEND_MARK);
}

/* ---- the shared list, with the walk above as one rack's */

static uint64_t rows[EK_LIST_PLACES + 1];
static uint64_t rows_before[EK_LIST_PLACES + 1];
static uint8_t odd[EK_LIST_PLACES + 2];
static uint8_t *const owners = odd + 1; /* bytes may stand anywhere */
static uint8_t owners_before[EK_LIST_PLACES + 1];

/* So many rows of rack 0, then so many of rack 1; the others are free. */
static void share(size_t first, size_t second)
{
    for (size_t i = 0; i <= EK_LIST_PLACES; i++) {
        rows[i] = UID + i;
    }
    memset(owners, EK_ROW_FREE, EK_LIST_PLACES + 1);
    memset(owners, 0, first);
    memset(owners + first, 1, second);
}

static void keep(void)
{
    memcpy(rows_before, rows, sizeof rows);
    memcpy(owners_before, owners, sizeof owners_before);
}

/* Whether all rows and marks but those of this row are as they were kept. */
static bool kept_but(size_t row)
{
    for (size_t i = 0; i <= EK_LIST_PLACES; i++) {
        if (i != row &&
            (rows[i] != rows_before[i] || owners[i] != owners_before[i])) {
            return false;
        }
    }
    return true;
}

static bool kept(void)
{
    return kept_but(EK_LIST_PLACES + 1);
}

static int64_t shared_start(uint32_t rack)
{
    return ek_shared_start(&walk, rack, 0x30, owners, EK_LIST_PLACES);
}

static int64_t shared_silence(uint32_t rack)
{
    return ek_shared_hear_silence(&walk, rack, rows, EK_LIST_PLACES, owners,
                                  EK_LIST_PLACES);
}

static int64_t shared_clash(uint32_t rack)
{
    return ek_shared_hear_clash(&walk, rack, rows, EK_LIST_PLACES, owners,
                                EK_LIST_PLACES);
}

static int64_t shared_reply(uint32_t rack, uint64_t uid)
{
    uint8_t bytes[EK_INVENTORY_ANSWER];
    put_reply(bytes, uid);
    return ek_shared_hear_bytes(&walk, rack, bytes, sizeof bytes, rows,
                                EK_LIST_PLACES, owners, EK_LIST_PLACES);
}

/* A walk that has listed so many. */
static void count_so(size_t count)
{
    ek_walk_start(&walk, EK_WALK_NO_FAMILY);
    walk.count = (uint8_t)count;
}

/* A start makes the record of ek_walk_start of anything, and frees the rack's
 * marks and no more, also where both racks or one own too many. */
static void shared_starts(void)
{
    struct ek_walk fresh_walk;
    ek_walk_start(&fresh_walk, 0x30);
    for (size_t first = 0; first <= EK_LIST_PLACES; first++) {
        for (uint32_t rack = 0; rack < 2; rack++) {
            share(first, first < 20 ? 7 : EK_LIST_PLACES - first);
            owners[EK_LIST_PLACES] = (uint8_t)rack;
            keep();
            memset(&walk, 0xFF, sizeof walk);
            MUST(shared_start(rack) == 0);
            MUST(memcmp(&walk, &fresh_walk, sizeof walk) == 0);
            for (size_t i = 0; i < EK_LIST_PLACES; i++) {
                bool own = owners_before[i] == rack;
                MUST(owners[i] == (own ? EK_ROW_FREE : owners_before[i]));
            }
            MUST(owners[EK_LIST_PLACES] == rack);
            MUST(memcmp(rows, rows_before, sizeof rows) == 0);
        }
    }
}

/* Every mark at every place; past the last any mark does. */
static void shared_marks(void)
{
    for (size_t i = 0; i <= EK_LIST_PLACES; i++) {
        for (unsigned mark = 0; mark < 256; mark++) {
            bool past = i == EK_LIST_PLACES;
            bool good = mark == 0 || mark == 1 || mark == EK_ROW_FREE || past;
            share(0, 0);
            owners[i] = (uint8_t)mark;
            keep();
            count_so(mark == 0 && !past);
            MUST(shared_silence(0) == (good ? 0 : EK_REFUSED_LIST) && kept());
            count_so(mark == 1 && !past);
            MUST(shared_clash(1) == (good ? 0 : EK_REFUSED_LIST) && kept());
            MUST(shared_start(0) == (good ? 0 : EK_REFUSED_LIST));
            MUST(kept_but(mark == 0 && !past ? i : EK_LIST_PLACES + 1));
        }
    }
}

/* A UID goes into the lowest free row, whatever is free above it, and nothing
 * else changes. */
static void shared_rows(void)
{
    for (size_t row = 0; row < EK_LIST_PLACES; row++) {
        for (uint32_t rack = 0; rack < 2; rack++) {
            size_t own = 0;
            share(0, 0);
            for (size_t i = 0; i < EK_LIST_PLACES; i++) {
                bool taken = i < row || (i > row && i % 3 == 0);
                owners[i] = taken ? (uint8_t)(i % 2) : EK_ROW_FREE;
                own += owners[i] == rack;
            }
            keep();
            count_so(own);
            MUST(shared_silence(rack) == 0 && walk.slot == 1 && kept());
            MUST(shared_clash(rack) == 0 && walk.marks[0] == 1u << 1 && kept());
            MUST(shared_reply(rack, E0 + 0x10) == 0); /* not of slot 2 */
            MUST(shared_reply(rack, 0x13) == 0 && kept()); /* no E0 */
            MUST(walk.marks[0] == (1u << 1 | 1u << 2 | 1u << 3));
            MUST(walk.count == own);
            MUST(shared_reply(rack, E0 + 0x14) == 0 && kept_but(row));
            MUST(rows[row] == E0 + 0x14 && owners[row] == rack);
            MUST(walk.count == own + 1 && walk.slot == 5);
        }
    }
}

/* Full with the most rows of a rack, or with no row free; the ending alone
 * changes. A reply whose UID does not begin with E0 is a clash there too. */
static void shared_full(void)
{
    for (uint32_t rack = 0; rack < 2; rack++) {
        struct ek_walk before;
        size_t most = EK_RACK_ROWS_MAX;
        share(rack == 0 ? most - 1 : 0, rack == 1 ? most - 1 : 0);
        count_so(most - 1);
        MUST(shared_reply(rack, E0 + 0x10) == 0);
        MUST(rows[most - 1] == E0 + 0x10);
        MUST(walk.count == most && walk.ending == EK_WALK_RUNNING);
        MUST(shared_silence(rack) == 0 && shared_clash(rack) == 0);
        keep();
        MUST(shared_reply(rack, 0x23) == 0 && kept());
        MUST(walk.marks[0] == (1u << 2 | 1u << 3) && walk.count == most);
        before = walk;
        before.ending = EK_WALK_FULL;
        MUST(shared_reply(rack, E0 + 0x24) == 0 && kept());
        MUST(memcmp(&walk, &before, sizeof walk) == 0);
        MUST(ask() == EK_SEND_NOTHING);

        /* The other rack has the most: 24 are left, and no more. */
        size_t rest = EK_LIST_PLACES - most;
        share(rack == 0 ? rest - 1 : most, rack == 0 ? most : rest - 1);
        count_so(rest - 1);
        MUST(shared_reply(rack, E0 + 0x10) == 0 && walk.count == rest);
        MUST(rows[EK_LIST_PLACES - 1] == E0 + 0x10);
        MUST(owners[EK_LIST_PLACES - 1] == rack);
        keep();
        MUST(shared_reply(rack, 0x21) == 0 && kept());
        MUST(walk.marks[0] == 1u << 1 && walk.count == rest);
        before = walk;
        before.ending = EK_WALK_FULL;
        MUST(shared_reply(rack, E0 + 0x22) == 0 && kept());
        MUST(memcmp(&walk, &before, sizeof walk) == 0);

        /* Twins at the last level. */
        count_so(rest);
        walk.level = 13;
        before = walk;
        before.ending = EK_WALK_TWINS;
        MUST(shared_reply(rack, 0) == 0 && kept());
        MUST(memcmp(&walk, &before, sizeof walk) == 0);
    }
}

/* Every share of both racks, and every count. */
static void shared_shares(void)
{
    for (size_t first = 0; first <= EK_LIST_PLACES; first++) {
        for (size_t second = 0; first + second <= EK_LIST_PLACES; second++) {
            bool fit = first <= EK_RACK_ROWS_MAX && second <= EK_RACK_ROWS_MAX;
            share(first, second);
            keep();
            count_so(first);
            MUST(shared_silence(0) == (fit ? 0 : EK_REFUSED_WALK));
            count_so(second);
            MUST(shared_silence(1) == (fit ? 0 : EK_REFUSED_WALK));
            for (size_t count = 0; count <= EK_LIST_PLACES; count++) {
                bool right = fit && count == first;
                count_so(count);
                MUST((shared_clash(0) == 0) == right);
                right = fit && count == second;
                count_so(count);
                MUST((shared_clash(1) == 0) == right);
            }
            MUST(kept());
        }
    }
}

/* With the other rack's rows in the way, the record goes as that of a walk with
 * a list for itself, and the rack's rows have its UIDs. */
static void shared_as_unshared(void)
{
    unsigned seed = 5;
    for (unsigned n = 0; n < 200; n++) {
        struct ek_walk alone;
        ek_walk_start(&alone, EK_WALK_NO_FAMILY);
        alone.rounds = (uint16_t)(n % 4 == 0 ? EK_WALK_ROUNDS_MAX - 3 : 1);
        share(0, n % 24);
        while (alone.ending == EK_WALK_RUNNING) {
            uint64_t tail = ek_walk_mask(&alone) |
                            (uint64_t)alone.slot << (4 * alone.level);
            struct ek_walk shared = alone;
            seed = seed * 1103515245 + 12345;
            unsigned what = alone.count == EK_RACK_ROWS_MAX ? 15
                                                            : seed >> 16 & 15;
            walk = alone;
            MUST((what == 0   ? clash()
                  : what == 1 ? reply(tail) /* no E0 */
                  : what < 4  ? reply(E0 | tail)
                              : silence()) == 0);
            alone = walk;
            walk = shared;
            MUST((what == 0   ? shared_clash(0)
                  : what == 1 ? shared_reply(0, tail)
                  : what < 4  ? shared_reply(0, E0 | tail)
                              : shared_silence(0)) == 0);
            MUST(memcmp(&walk, &alone, sizeof walk) == 0);
        }
        size_t found_so_far = 0;
        for (size_t i = 0; i < EK_LIST_PLACES; i++) {
            MUST(owners[i] == (i < n % 24                ? 1
                               : i < n % 24 + alone.count ? 0
                                                          : EK_ROW_FREE));
            if (owners[i] == 0) {
                MUST(rows[i] == list[found_so_far]);
                found_so_far++;
            }
        }
        MUST(found_so_far == alone.count);
    }
}

/* 13, 5 to start; 13, 10, 6, 5, 10 to hear: all faults at once, then one fewer
 * each time. All 32 bits of a rack count. */
static void orders_of_shared(void)
{
    static const int64_t order[] = {EK_REFUSED_RACK,  EK_REFUSED_WALK,
                                    EK_REFUSED_ENDED, EK_REFUSED_LIST,
                                    EK_REFUSED_LIST,  EK_REFUSED_LIST,
                                    EK_REFUSED_WALK,  EK_REFUSED_WALK,
                                    0};
    static const uint32_t none[] = {2, 254, 255, 256, 257, 65536, UINT32_MAX};
    const uint8_t bytes[1] = {0};
    for (int mended = 0; mended < 9; mended++) {
        uint32_t rack = mended < 1 ? 2 : 0;
        size_t places = EK_LIST_PLACES - (mended < 4);
        size_t marks = EK_LIST_PLACES - (mended < 5);
        for (int call = 0; call < 3; call++) {
            struct ek_walk before;
            share(EK_RACK_ROWS_MAX + (mended < 7), 3);
            owners[EK_LIST_PLACES - 1] = mended < 6 ? 2 : EK_ROW_FREE;
            count_so(EK_RACK_ROWS_MAX + (mended < 7) - (mended < 8));
            walk.slot = mended < 2 ? 16 : 0;
            walk.ending = mended < 3 ? EK_WALK_OVERRUN : EK_WALK_RUNNING;
            before = walk;
            keep();
            MUST((call == 0   ? ek_shared_hear_silence(&walk, rack, rows,
                                                       places, owners, marks)
                  : call == 1 ? ek_shared_hear_clash(&walk, rack, rows, places,
                                                     owners, marks)
                              : ek_shared_hear_bytes(&walk, rack, bytes, 1,
                                                     rows, places, owners,
                                                     marks)) == order[mended]);
            MUST(kept());
            MUST((memcmp(&walk, &before, sizeof walk) == 0) == (mended < 8));
        }
    }
    for (int mended = 0; mended < 4; mended++) {
        struct ek_walk before;
        share(3, 3);
        owners[EK_LIST_PLACES - 1] = mended < 3 ? 2 : EK_ROW_FREE;
        memset(&walk, 0xFF, sizeof walk);
        before = walk;
        keep();
        MUST(ek_shared_start(&walk, mended < 1 ? 2 : 0, 0x30, owners,
                             EK_LIST_PLACES - (mended < 2)) ==
             (mended < 1   ? EK_REFUSED_RACK
              : mended < 3 ? EK_REFUSED_LIST
                           : 0));
        MUST(kept() == (mended < 3));
        MUST((memcmp(&walk, &before, sizeof walk) == 0) == (mended < 3));
    }
    share(0, 0);
    count_so(0);
    for (size_t i = 0; i < sizeof none / sizeof *none; i++) {
        MUST(shared_start(none[i]) == EK_REFUSED_RACK);
        MUST(shared_silence(none[i]) == EK_REFUSED_RACK);
        MUST(shared_clash(none[i]) == EK_REFUSED_RACK);
        MUST(shared_reply(none[i], E0 + 0x10) == EK_REFUSED_RACK);
    }
    MUST(ek_shared_start(&walk, 0, 0x30, owners, EK_LIST_PLACES - 1) ==
         EK_REFUSED_LIST);
    MUST(ek_shared_hear_silence(&walk, 0, rows, EK_LIST_PLACES - 1, owners,
                                EK_LIST_PLACES) == EK_REFUSED_LIST);
    MUST(ek_shared_hear_silence(&walk, 0, rows, EK_LIST_PLACES, owners,
                                EK_LIST_PLACES - 1) == EK_REFUSED_LIST);
    MUST(ek_shared_start(&walk, 0, 0x30, NULL, 0) == EK_REFUSED_LIST);
    MUST(ek_shared_hear_silence(&walk, 0, NULL, 0, NULL, 0) ==
         EK_REFUSED_LIST);
    MUST(ek_shared_hear_bytes(&walk, 0, NULL, 0, rows, EK_LIST_PLACES, owners,
                              EK_LIST_PLACES) == 0);
    MUST(walk.marks[0] == 1); /* no bytes are a clash */
}

/* ---- the reader, with the card above */

static uint8_t made[EK_MADE_MAX + 1];
static uint8_t read_blocks[EK_CARD_BLOCKS_MAX * EK_CARD_SIZE_MAX + 1];
static uint8_t read_locks[EK_CARD_BLOCKS_MAX + 1];
static size_t said; /* how many bytes the card answered last */

static struct ek_request asked(uint8_t mode, uint8_t command)
{
    struct ek_request wanted = {0};
    wanted.uid = UID;
    wanted.size = (uint16_t)size;
    wanted.command = command;
    wanted.mode = mode;
    return wanted;
}

/* What is read of the card's last answer, over buffers of so many bytes. */
static struct ek_reading reading(struct ek_request wanted, size_t blocks_room,
                                 size_t locks_room)
{
    memset(read_blocks, 0xA5, sizeof read_blocks);
    memset(read_locks, 0xA5, sizeof read_locks);
    return ek_read(wanted, answer, said, read_blocks, blocks_room, read_locks,
                   locks_room);
}

static bool untouched(size_t from_block, size_t from_lock)
{
    for (size_t i = from_block; i < sizeof read_blocks; i++) {
        if (read_blocks[i] != 0xA5) {
            return false;
        }
    }
    for (size_t i = from_lock; i < sizeof read_locks; i++) {
        if (read_locks[i] != 0xA5) {
            return false;
        }
    }
    return true;
}

/* Makes a request, lets it reach the card, and reads the answer. */
static struct ek_reading exchange(struct ek_request wanted, const uint8_t *data)
{
    int64_t n = ek_make(wanted, data, data == NULL ? 0 : size, made,
                        EK_MADE_MAX);
    MUST(n >= 4 && n <= EK_MADE_MAX);
    int64_t answered =
        ek_card_frame(record, EK_CARD_RECORD, made, (size_t)n, memory,
                      blocks * size, locks, blocks, answer, sizeof answer);
    MUST(answered > 0);
    said = (size_t)answered;
    return reading(wanted, EK_CARD_BLOCKS_MAX * EK_CARD_SIZE_MAX,
                   EK_CARD_BLOCKS_MAX);
}

static bool reads(struct ek_reading got, int kind, size_t value)
{
    return got.answer >= 0 && EK_READ_KIND(got.answer) == kind &&
           EK_READ_VALUE(got.answer) == value;
}

static bool done(struct ek_reading got)
{
    return reads(got, EK_READ_DONE, 0) && untouched(0, 0);
}

/* The bytes of requests: flags by mode and Option, UID, bodies, check. */
static void requests(void)
{
    const uint8_t data[SIZE] = {0xCA, 0xFE, 0xBA};
    new_card();
    for (unsigned mode = 0; mode < 256; mode++) {
        struct ek_request wanted =
            asked((uint8_t)mode, EK_COMMAND_RESET_TO_READY);
        size_t n = mode == EK_TO_UID ? 10 : 2;
        memset(made, 0xA5, sizeof made);
        MUST(ek_make(wanted, NULL, 0, made, EK_MADE_MAX) == (int64_t)n + 2);
        MUST(made[0] == (0x02 | (mode == EK_TO_ALL   ? 0
                                 : mode == EK_TO_UID ? EK_FLAG_ADDRESS
                                                     : EK_FLAG_SELECT)));
        MUST(made[1] == EK_COMMAND_RESET_TO_READY);
        MUST(n == 2 || ek_get_number(made + 2, 8) == UID);
        MUST(ek_get_number(made + n, 2) == ek_check(made, n));
        MUST(made[n + 2] == 0xA5 && made[EK_MADE_MAX] == 0xA5);
    }
    MUST(EK_TO_SELECTED - 1 == EK_TO_UID && EK_TO_ALL + 1 == EK_TO_UID);

    struct ek_request wanted =
        asked(EK_TO_SELECTED, EK_COMMAND_WRITE_SINGLE_BLOCK);
    wanted.option = 0xFF;
    wanted.first = 0x11;
    MUST(ek_make(wanted, data, SIZE, made, EK_MADE_MAX) == 5 + SIZE);
    MUST(made[0] == (0x02 | EK_FLAG_SELECT | EK_FLAG_OPTION));
    MUST(made[2] == 0x11 && memcmp(made + 3, data, SIZE) == 0);
    wanted = asked(EK_TO_ALL, EK_COMMAND_READ_MULTIPLE_BLOCKS);
    wanted.first = 0x11;
    wanted.n = 0x22;
    MUST(ek_make(wanted, NULL, 0, made, EK_MADE_MAX) == 6);
    MUST(made[2] == 0x11 && made[3] == 0x22);
    wanted = asked(EK_TO_ALL, EK_COMMAND_WRITE_AFI);
    wanted.value = 0x33;
    MUST(ek_make(wanted, NULL, 0, made, EK_MADE_MAX) == 5 && made[2] == 0x33);
}

/* Each kind of reading, of what our card holds. */
static void readings(void)
{
    const uint8_t data[SIZE] = {0xCA, 0xFE, 0xBA};
    struct ek_request wanted;
    struct ek_reading got;
    new_card();
    wanted = asked(EK_TO_UID, EK_COMMAND_READ_SINGLE_BLOCK);
    wanted.first = 2;
    MUST(reads(exchange(wanted, NULL), EK_READ_BLOCKS, SIZE));
    MUST(memcmp(read_blocks, memory + 2 * SIZE, SIZE) == 0);
    MUST(untouched(SIZE, 0));
    wanted.command = EK_COMMAND_WRITE_SINGLE_BLOCK;
    MUST(done(exchange(wanted, data)));
    MUST(memcmp(memory + 2 * SIZE, data, SIZE) == 0);
    wanted.command = EK_COMMAND_LOCK_BLOCK;
    MUST(done(exchange(wanted, NULL)) && locks[2] == 1);
    MUST(reads(exchange(wanted, NULL), EK_READ_ERROR, EK_ERROR_RELOCK));
    MUST(untouched(0, 0));
    wanted.command = EK_COMMAND_WRITE_SINGLE_BLOCK;
    MUST(reads(exchange(wanted, data), EK_READ_ERROR, EK_ERROR_LOCKED));

    wanted = asked(EK_TO_ALL, EK_COMMAND_READ_MULTIPLE_BLOCKS);
    wanted.first = 1;
    wanted.n = 2;
    MUST(reads(exchange(wanted, NULL), EK_READ_BLOCKS, 3 * SIZE));
    MUST(memcmp(read_blocks, memory + SIZE, 3 * SIZE) == 0);
    MUST(untouched(3 * SIZE, 0));
    wanted.option = 1;
    MUST(reads(exchange(wanted, NULL), EK_READ_BLOCKS, 3 * SIZE));
    MUST(memcmp(read_blocks, memory + SIZE, 3 * SIZE) == 0);
    MUST(memcmp(read_locks, locks + 1, 3) == 0 && untouched(3 * SIZE, 3));
    wanted.n = BLOCKS - 1;
    MUST(reads(exchange(wanted, NULL), EK_READ_ERROR, EK_ERROR_BLOCK));
    MUST(untouched(0, 0));
    wanted = asked(EK_TO_ALL, EK_COMMAND_GET_MULTIPLE_BLOCK_SECURITY_STATUS);
    wanted.n = 2;
    MUST(reads(exchange(wanted, NULL), EK_READ_LOCKS, 3));
    MUST(memcmp(read_locks, locks, 3) == 0 && untouched(0, 3));

    wanted = asked(EK_TO_UID, EK_COMMAND_SELECT);
    MUST(done(exchange(wanted, NULL)));
    MUST(ek_card_mode(record) == EK_MODE_SELECTED);
    wanted = asked(EK_TO_SELECTED, EK_COMMAND_WRITE_AFI);
    wanted.value = 0x30;
    MUST(done(exchange(wanted, NULL)) && ek_card_afi(record) == 0x30);
    wanted.command = EK_COMMAND_WRITE_DSFID;
    MUST(done(exchange(wanted, NULL)) && ek_card_dsfid(record) == 0x30);
    wanted.command = EK_COMMAND_LOCK_AFI;
    MUST(done(exchange(wanted, NULL)) && ek_card_afi_locked(record));
    wanted.command = EK_COMMAND_LOCK_DSFID;
    MUST(done(exchange(wanted, NULL)) && ek_card_dsfid_locked(record));
    wanted.command = EK_COMMAND_RESET_TO_READY;
    MUST(done(exchange(wanted, NULL)) && ek_card_mode(record) == EK_MODE_READY);

    new_card();
    got = exchange(asked(EK_TO_ALL, EK_COMMAND_GET_SYSTEM_INFORMATION), NULL);
    MUST(reads(got, EK_READ_INFORMATION, 0) && untouched(0, 0));
    MUST(got.information.uid == UID && got.information.blocks == BLOCKS);
    MUST(got.information.size == SIZE && got.information.dsfid == 0xD5);
    MUST(got.information.afi == 0xAF && got.information.ic == 0x1C);
    MUST(got.information.flags == EK_INFORMATION_ALL);
}

/* The longest request and the longest answer. */
static void longest(void)
{
    struct ek_request wanted;
    new_card();
    blocks = EK_CARD_BLOCKS_MAX;
    size = EK_CARD_SIZE_MAX;
    ek_card_new(record, UID, EK_CARD_BLOCKS_MAX, EK_CARD_SIZE_MAX);
    wanted = asked(EK_TO_UID, EK_COMMAND_WRITE_SINGLE_BLOCK);
    wanted.first = 255;
    MUST(done(exchange(wanted, memory)));
    MUST(ek_make(wanted, memory, size, made, EK_MADE_MAX) == EK_MADE_MAX);
    wanted = asked(EK_TO_UID, EK_COMMAND_READ_MULTIPLE_BLOCKS);
    wanted.option = 1;
    wanted.n = 255;
    MUST(reads(exchange(wanted, NULL), EK_READ_BLOCKS, blocks * size));
    MUST(said == EK_ANSWER_MAX);
    MUST(memcmp(read_blocks, memory, blocks * size) == 0);
    MUST(memcmp(read_locks, locks, blocks) == 0);
    MUST(untouched(blocks * size, blocks));
}

static bool refuses(struct ek_reading got, int64_t number)
{
    static const struct ek_reading none;
    return got.answer == number && untouched(0, 0) &&
           memcmp(&got.information, &none.information,
                  sizeof none.information) == 0;
}

/* Whether neither making nor reading takes the request. */
static bool no_request(struct ek_request wanted)
{
    return ek_make(wanted, memory, SIZE, made, 0) == EK_REFUSED_REQUEST &&
           refuses(reading(wanted, 0, 0), EK_REFUSED_REQUEST);
}

static void orders_of_reader(void)
{
    struct ek_request wanted;
    new_card();
    said = 0;
    for (unsigned command = 0; command < 256; command++) {
        bool listed = command >= EK_COMMAND_READ_SINGLE_BLOCK &&
                      command <= EK_COMMAND_GET_MULTIPLE_BLOCK_SECURITY_STATUS;
        MUST(no_request(asked(EK_TO_UID, (uint8_t)command)) ==
             (!listed || command == 0x24));
    }
    MUST(no_request(asked(EK_TO_ALL, EK_COMMAND_SELECT)));
    MUST(no_request(asked(EK_TO_SELECTED, EK_COMMAND_SELECT)));
    wanted = asked(EK_TO_ALL, EK_COMMAND_LOCK_AFI);
    wanted.size = 0;
    MUST(no_request(wanted));
    wanted.size = EK_CARD_SIZE_MAX + 1;
    MUST(no_request(wanted));
    wanted.size = 256 + 1;
    MUST(no_request(wanted));
    wanted.size = EK_CARD_SIZE_MAX;
    MUST(!no_request(wanted));
    wanted.size = 1;
    MUST(!no_request(wanted));

    /* 7, 8 to make; data for a write alone. */
    wanted = asked(EK_TO_UID, EK_COMMAND_WRITE_SINGLE_BLOCK);
    memset(made, 0xA5, sizeof made);
    MUST(ek_make(wanted, memory, SIZE - 1, made, 0) == EK_REFUSED_REQUEST);
    MUST(ek_make(wanted, memory, SIZE + 1, made, 0) == EK_REFUSED_REQUEST);
    MUST(ek_make(wanted, memory, SIZE, made, EK_MADE_MAX - 1) ==
         EK_REFUSED_ROOM);
    MUST(made[0] == 0xA5);
    wanted.command = EK_COMMAND_LOCK_BLOCK;
    MUST(ek_make(wanted, memory, SIZE + 1, made, EK_MADE_MAX) == 13);

    /* 7, 8, 11 to read. */
    wanted = asked(EK_TO_ALL, EK_COMMAND_READ_MULTIPLE_BLOCKS);
    wanted.option = 1;
    wanted.n = 1;
    MUST(reads(exchange(wanted, NULL), EK_READ_BLOCKS, 2 * SIZE));
    answer[1]++;
    wanted.size = 0;
    MUST(refuses(reading(wanted, 0, 0), EK_REFUSED_REQUEST));
    wanted.size = SIZE;
    MUST(refuses(reading(wanted, 2 * SIZE - 1, 2), EK_REFUSED_ROOM));
    MUST(refuses(reading(wanted, 2 * SIZE, 1), EK_REFUSED_ROOM));
    MUST(refuses(reading(wanted, 2 * SIZE, 2), EK_REFUSED_ANSWER));
    answer[1]--;
    MUST(reads(reading(wanted, 2 * SIZE, 2), EK_READ_BLOCKS, 2 * SIZE));
    wanted.size++;
    MUST(refuses(reading(wanted, 3 * SIZE, 2), EK_REFUSED_ANSWER));
    wanted = asked(EK_TO_ALL, EK_COMMAND_GET_MULTIPLE_BLOCK_SECURITY_STATUS);
    MUST(refuses(reading(wanted, 0, 0), EK_REFUSED_ROOM));
    MUST(reads(exchange(wanted, NULL), EK_READ_LOCKS, 1));
    MUST(reads(reading(wanted, 0, 1), EK_READ_LOCKS, 1));
}

/* Bytes with their check, read as the answer to a request for no data. */
static int64_t heard(uint8_t command, const uint8_t *bytes, size_t length)
{
    struct ek_reading got;
    memcpy(answer, bytes, length);
    MUST(ek_seal(answer, sizeof answer, length) == (int64_t)length + 2);
    said = length + 2;
    got = reading(asked(EK_TO_ALL, command), 0, 0);
    MUST(untouched(0, 0));
    return got.answer;
}

#define HEARD(command, ...)                                                    \
    heard(command, (const uint8_t[]){__VA_ARGS__},                             \
          sizeof((const uint8_t[]){__VA_ARGS__}))

/* What is no answer: its flags, the length of an error and of a success, and
 * information that is not whole. A tag may have any error code. */
static void answers(void)
{
    uint8_t information[15] = {EK_ANSWER_SUCCESS, EK_INFORMATION_ALL};
    MUST(HEARD(EK_COMMAND_LOCK_AFI, EK_ANSWER_SUCCESS) == 65536 * EK_READ_DONE);
    MUST(HEARD(EK_COMMAND_LOCK_AFI, EK_ANSWER_ERROR + 1) == EK_REFUSED_ANSWER);
    MUST(HEARD(EK_COMMAND_LOCK_AFI, EK_ANSWER_SUCCESS, 0) == EK_REFUSED_ANSWER);
    MUST(HEARD(EK_COMMAND_LOCK_AFI, EK_ANSWER_ERROR) == EK_REFUSED_ANSWER);
    MUST(HEARD(EK_COMMAND_LOCK_AFI, EK_ANSWER_ERROR, 0x12, 0) ==
         EK_REFUSED_ANSWER);
    for (unsigned code = 0; code < 256; code++) {
        int64_t got =
            HEARD(EK_COMMAND_LOCK_AFI, EK_ANSWER_ERROR, (uint8_t)code);
        MUST(EK_READ_KIND(got) == EK_READ_ERROR && EK_READ_VALUE(got) == code);
    }
    information[12] = information[13] = 0xFF;
    int64_t got = heard(EK_COMMAND_GET_SYSTEM_INFORMATION, information, 15);
    MUST(got >= 0 && EK_READ_KIND(got) == EK_READ_INFORMATION);
    struct ek_reading largest =
        reading(asked(EK_TO_ALL, EK_COMMAND_GET_SYSTEM_INFORMATION), 0, 0);
    MUST(largest.information.blocks == 256 && largest.information.size == 256);
    information[1] = EK_INFORMATION_ALL - 1;
    MUST(heard(EK_COMMAND_GET_SYSTEM_INFORMATION, information, 15) ==
         EK_REFUSED_ANSWER);
    for (said = 0; said < 3; said++) {
        MUST(refuses(reading(asked(EK_TO_ALL, EK_COMMAND_LOCK_AFI), 0, 0),
                     EK_REFUSED_ANSWER));
    }
}

/* ---- the coil */

static uint8_t coil_answer[EK_ANSWER_MAX + 1];
static uint8_t coil_track[EK_COIL_TRACK_MAX + 2];
static uint8_t coil_back[EK_ANSWER_MAX + 1];

/* Codes the first bytes of the answer, in a room of just the track's length and
 * in a larger one. */
static size_t coil_code(size_t n)
{
    size_t length = EK_COIL_TRACK(n);
    memset(coil_track, 0xA5, sizeof coil_track);
    MUST(ek_coil_code(coil_answer, n, coil_track, length - 1) ==
         EK_REFUSED_ROOM);
    MUST(coil_track[0] == 0xA5);
    MUST(ek_coil_code(coil_answer, n, coil_track, length) == (int64_t)length);
    MUST(ek_coil_code(coil_answer, n, coil_track, sizeof coil_track) ==
         (int64_t)length);
    MUST(coil_track[0] == EK_COIL_START);
    MUST(coil_track[length - 1] == EK_COIL_END && coil_track[length] == 0xA5);
    MUST(coil_track[sizeof coil_track - 1] == 0xA5);
    return length;
}

static int64_t coil_decode(size_t length)
{
    memset(coil_back, 0xA5, sizeof coil_back);
    return ek_coil_decode(coil_track, length, coil_back, EK_ANSWER_MAX);
}

/* Whether every byte that was read back from this place on is as found. */
static bool coil_untouched(size_t from)
{
    for (size_t i = from; i < sizeof coil_back; i++) {
        if (coil_back[i] != 0xA5) {
            return false;
        }
    }
    return true;
}

/* Whether the track is read as the first bytes of the answer. */
static bool coil_reads(size_t length, size_t n)
{
    int64_t r = coil_decode(length);
    return EK_COIL_KIND(r) == EK_COIL_ANSWER && EK_COIL_NUMBER(r) == n &&
           memcmp(coil_back, coil_answer, n) == 0 && coil_untouched(n);
}

/* Whether it is a clash, or lost, first at this bit, and nothing is written. */
static bool coil_bad(size_t length, int kind, size_t bit)
{
    int64_t r = coil_decode(length);
    return EK_COIL_KIND(r) == kind && EK_COIL_NUMBER(r) == bit &&
           coil_untouched(0);
}

static void coil_draw(size_t n, unsigned seed)
{
    for (size_t i = 0; i < n; i++) {
        seed = seed * 1103515245 + 12345;
        coil_answer[i] = (uint8_t)(seed >> 16);
    }
}

/* The pair of units of a bit becomes 11, or 00. */
static void coil_pair(size_t bit, bool pulses)
{
    uint8_t units = (uint8_t)(0xC0 >> (2 * (bit % 4)));
    uint8_t *byte = &coil_track[1 + bit / 4];
    *byte = (uint8_t)(pulses ? *byte | units : *byte & ~units);
}

/* Every byte and many lengths, to the longest. */
static void coil_there_and_back(void)
{
    MUST(EK_COIL_TRACK_MAX == EK_COIL_TRACK(EK_ANSWER_MAX));
    coil_answer[0] = 0xE1;
    coil_answer[1] = 0x00;
    coil_answer[2] = 0xFF;
    MUST(coil_code(EK_ANSWER_MIN) == 8);
    MUST(coil_track[1] == 0x6A && coil_track[2] == 0x95);
    MUST(coil_track[3] == 0xAA && coil_track[4] == 0xAA);
    MUST(coil_track[5] == 0x55 && coil_track[6] == 0x55);
    for (unsigned i = 0; i < 256; i++) {
        coil_answer[i] = (uint8_t)i;
    }
    MUST(coil_reads(coil_code(256), 256));
    for (size_t n = EK_ANSWER_MIN; n <= 300; n++) {
        coil_draw(n, (unsigned)n);
        MUST(coil_reads(coil_code(n), n));
    }
    coil_draw(EK_ANSWER_MAX, 1);
    MUST(coil_code(EK_ANSWER_MAX) == EK_COIL_TRACK_MAX);
    MUST(coil_reads(EK_COIL_TRACK_MAX, EK_ANSWER_MAX));
}

/* Each bit bad in both ways, alone and before a bad one of the other way; then
 * the last bit of the longest answer. */
static void coil_first_bad(void)
{
    enum { N = 40 };
    coil_draw(N, 2);
    for (size_t bit = 0; bit < 8 * N; bit++) {
        for (int clash = 0; clash < 2; clash++) {
            int kind = clash ? EK_COIL_CLASH : EK_COIL_LOST;
            size_t length = coil_code(N);
            coil_pair(bit, clash);
            MUST(coil_bad(length, kind, bit));
            for (size_t later = bit + 1; later < 8 * N; later += 7) {
                coil_pair(later, !clash);
                MUST(coil_bad(length, kind, bit));
            }
        }
    }
    coil_draw(EK_ANSWER_MAX, 3);
    coil_code(EK_ANSWER_MAX);
    coil_pair(67607, true);
    MUST(coil_bad(EK_COIL_TRACK_MAX, EK_COIL_CLASH, 67607));
    coil_pair(67607, false);
    MUST(coil_bad(EK_COIL_TRACK_MAX, EK_COIL_LOST, 67607));
    coil_pair(0, false);
    MUST(coil_bad(EK_COIL_TRACK_MAX, EK_COIL_LOST, 0));
}

/* Tracks over each other: identical answers are one; different ones are a clash
 * at the first bit in which they differ, or where the shorter one ends; the
 * first end is the last byte. */
static void coil_overlaid(void)
{
    enum { N = 9 };
    static uint8_t first[EK_COIL_TRACK(N)];
    for (size_t n = EK_ANSWER_MIN; n <= N; n++) {
        for (size_t bit = 0; bit <= 8 * n; bit++) {
            size_t place = bit;
            coil_draw(N, (unsigned)bit);
            size_t length = coil_code(N);
            memcpy(first, coil_track, length);
            if (bit < 8 * n) {
                coil_answer[bit / 8] ^= (uint8_t)(1 << bit % 8);
            }
            size_t shorter = coil_code(n);
            memset(coil_track + shorter, 0, length - shorter);
            for (size_t i = 0; i < length; i++) {
                coil_track[i] |= first[i];
            }
            MUST(memchr(coil_track, EK_COIL_END, length) ==
                 coil_track + length - 1);
            if (bit == 8 * n && n == N) {
                MUST(coil_reads(length, N));
                continue;
            }
            if (bit == 8 * n) { /* the end begins with 10, a bit 0, and 11 */
                place += (coil_answer[n] & 1) == 0;
            }
            MUST(coil_bad(length, EK_COIL_CLASH, place));
        }
    }
}

/* What a track of n bytes is read as, with nothing but bits 0 in it. */
static int64_t coil_of_length(size_t n)
{
    memset(coil_track, 0xAA, n);
    coil_track[0] = EK_COIL_START;
    coil_track[n - 1] = EK_COIL_END;
    return coil_decode(n);
}

/* 7, 8 to code; 8, 12 to decode. A refusal's kind is -1. */
static void orders_of_coil(void)
{
    size_t length;
    memset(coil_track, 0xA5, sizeof coil_track);
    for (size_t n = 0; n < EK_ANSWER_MIN; n++) {
        MUST(ek_coil_code(coil_answer, n, coil_track, 0) ==
             EK_REFUSED_ANSWER_LENGTH);
    }
    MUST(ek_coil_code(coil_answer, EK_ANSWER_MAX + 1, coil_track, 0) ==
         EK_REFUSED_ANSWER_LENGTH);
    MUST(ek_coil_code(coil_answer, EK_ANSWER_MAX, coil_track,
                      EK_COIL_TRACK_MAX - 1) == EK_REFUSED_ROOM);
    MUST(ek_coil_code(coil_answer, EK_ANSWER_MIN, coil_track, 0) ==
         EK_REFUSED_ROOM);
    MUST(coil_track[0] == 0xA5);

    MUST(ek_coil_decode(NULL, 0, coil_back, EK_ANSWER_MAX - 1) ==
         EK_REFUSED_ROOM);
    MUST(ek_coil_decode(NULL, 0, coil_back, EK_ANSWER_MAX) ==
         EK_REFUSED_NO_ANSWER_TRACK);
    coil_draw(EK_ANSWER_MAX + 1, 4);
    length = coil_code(EK_ANSWER_MIN + 1);
    MUST(ek_coil_decode(coil_track, length, coil_back, EK_ANSWER_MAX - 1) ==
         EK_REFUSED_ROOM);
    MUST(coil_reads(length, EK_ANSWER_MIN + 1));
    for (unsigned byte = 0; byte < 256; byte++) {
        coil_track[0] = (uint8_t)byte;
        MUST((coil_decode(length) == EK_REFUSED_NO_ANSWER_TRACK) ==
             (byte != EK_COIL_START));
    }
    coil_track[0] = EK_COIL_START;
    for (unsigned byte = 0; byte < 256; byte++) {
        coil_track[length - 1] = (uint8_t)byte;
        MUST((coil_decode(length) == EK_REFUSED_NO_ANSWER_TRACK) ==
             (byte != EK_COIL_END));
    }
    /* A wrong start, end or length comes before a bad bit. */
    coil_track[1] = 0;
    MUST(coil_decode(length) == EK_REFUSED_NO_ANSWER_TRACK);

    for (size_t n = 1; n < 40; n++) {
        bool fits = n % 2 == 0 && n >= EK_COIL_TRACK(EK_ANSWER_MIN);
        MUST(coil_of_length(n) ==
             (fits ? (int64_t)(n - 2) / 2 : EK_REFUSED_NO_ANSWER_TRACK));
        MUST(fits || coil_untouched(0));
    }
    MUST(coil_of_length(EK_COIL_TRACK_MAX - 1) == EK_REFUSED_NO_ANSWER_TRACK);
    MUST(coil_of_length(EK_COIL_TRACK_MAX) == EK_ANSWER_MAX);
    MUST(coil_of_length(EK_COIL_TRACK_MAX + 1) == EK_REFUSED_NO_ANSWER_TRACK);
    MUST(coil_of_length(EK_COIL_TRACK_MAX + 2) == EK_REFUSED_NO_ANSWER_TRACK);
    MUST(coil_untouched(0));
    for (int64_t r = EK_REFUSED_NO_ANSWER_TRACK; r < 0; r++) {
        MUST(EK_COIL_KIND(r) == -1);
    }
}

int main(void)
{
    version();
    tracks();
    orders_of_tracks();
    shown();
    shapes();
    fresh();
    modes();
    sequence();
    called();
    commands();
    held();
    reserved();
    orders_of_card();
    fields();
    families();
    deepest();
    first_bytes();
    full();
    overrun();
    orders_of_walk();
    shared_starts();
    shared_marks();
    shared_rows();
    shared_full();
    shared_shares();
    shared_as_unshared();
    orders_of_shared();
    requests();
    readings();
    longest();
    orders_of_reader();
    answers();
    coil_there_and_back();
    coil_first_bad();
    coil_overlaid();
    orders_of_coil();
    return 0;
}

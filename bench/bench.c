/*
 * The library's check, coders, decoders and card beside the same in plain C;
 * its check beside a bit form too, and its decoder, and the coil's coder and
 * decoder, beside the best that we know. All take turns at the clock. The
 * script run makes a table of what is printed here.
 *
 *     bench time|same
 */
#include <stdbool.h>
#include <stdio.h>
#include <stdlib.h>
#include <string.h>

#include "best.h"
#include "espenknoten.h"
#include "plain.h"
#include "same.h"
#include "turns.h"

#define FRAMES 8

/* The shape of the cards. */
#define BLOCKS 32
#define SIZE 4
#define ROOM EK_CARD_ROOM(BLOCKS, SIZE)

struct side {
    uint16_t (*check)(const uint8_t *, size_t);
    uint16_t (*check_by_bits)(const uint8_t *, size_t);
    int64_t (*code)(const uint8_t *, size_t, uint32_t, uint8_t *, size_t);
    int64_t (*decode)(const uint8_t *, size_t, uint8_t *, size_t);
    int64_t (*coil_code)(const uint8_t *, size_t, uint8_t *, size_t);
    int64_t (*coil_decode)(const uint8_t *, size_t, uint8_t *, size_t);
    int64_t (*frame)(uint8_t *, size_t, const uint8_t *, size_t, uint8_t *,
                     size_t, uint8_t *, size_t, uint8_t *, size_t);
    int64_t (*mark)(uint8_t *, size_t, const uint8_t *, size_t, const uint8_t *,
                    size_t, uint8_t *, size_t);
};

static const struct side SIDES[] = {
    [OURS] = {ek_check, ek_check, ek_code, ek_decode, ek_coil_code,
              ek_coil_decode, ek_card_frame, ek_card_mark},
    [PLAIN] = {plain_check, plain_check_by_bits, plain_code, plain_decode,
               plain_coil_code, plain_coil_decode, plain_card_frame,
               plain_card_mark},
    [BEST] = {.decode = best_decode, .coil_code = best_coil_code,
              .coil_decode = best_coil_decode},
};

/* The library has one check: CHECK_BY_BITS is that beside the bit form. */
enum task { CHECK, CHECK_BY_BITS, CODE, DECODE, COIL_CODE, COIL_DECODE,
            COIL_CLASH, FRAME, MARK };

/* A frame's row has the message that the cards are sent. */
struct row {
    const char *name;
    enum task task;
    uint32_t coding;
    size_t length;
    uint8_t message[4];
};

static const struct row ROWS[] = {
    {"check, 10 bytes", CHECK, 0, 10, {0}},
    {"check, 64 bytes", CHECK, 0, 64, {0}},
    {"check, 10 bytes, beside the bit form", CHECK_BY_BITS, 0, 10, {0}},
    {"check, 64 bytes, beside the bit form", CHECK_BY_BITS, 0, 64, {0}},
    {"coder, 1 of 4, 16 bytes", CODE, EK_ONE_OF_4, 16, {0}},
    {"coder, 1 of 4, 64 bytes", CODE, EK_ONE_OF_4, 64, {0}},
    {"coder, 1 of 256, 16 bytes", CODE, EK_ONE_OF_256, 16, {0}},
    {"coder, 1 of 256, 64 bytes", CODE, EK_ONE_OF_256, 64, {0}},
    {"decoder, 1 of 4, 16 bytes", DECODE, EK_ONE_OF_4, 16, {0}},
    {"decoder, 1 of 4, 64 bytes", DECODE, EK_ONE_OF_4, 64, {0}},
    {"decoder, 1 of 256, 16 bytes", DECODE, EK_ONE_OF_256, 16, {0}},
    {"decoder, 1 of 256, 64 bytes", DECODE, EK_ONE_OF_256, 64, {0}},
    {"coil coder, 12 bytes", COIL_CODE, 0, 12, {0}},
    {"coil coder, 8,451 bytes", COIL_CODE, 0, EK_ANSWER_MAX, {0}},
    {"coil decoder, 12 bytes", COIL_DECODE, 0, 12, {0}},
    {"coil decoder, 8,451 bytes", COIL_DECODE, 0, EK_ANSWER_MAX, {0}},
    {"the same, last bit a clash", COIL_CLASH, 0, EK_ANSWER_MAX, {0}},
    {"card, inventory request", FRAME, 0, 3, {0x06, 0x01, 0x00}},
    {"card, inventory, family", FRAME, 0, 4, {0x16, 0x01, 0x30, 0x00}},
    {"card, read of a block", FRAME, 0, 3, {0x02, 0x20, 0x03}},
    {"card, read of 32, Option", FRAME, 0, 4, {0x42, 0x23, 0x00, 0x1F}},
    {"card, slot mark", MARK, 0, 0, {0}},
};
#define ROW_COUNT (sizeof ROWS / sizeof ROWS[0])

static uint8_t frames[FRAMES][EK_FRAME_MAX];
static uint8_t tracks[FRAMES][EK_TRACK_MAX];
static size_t track_length;

/* The coil has an answer for each frame. */
static uint8_t answers[FRAMES][EK_ANSWER_MAX + 1];
static uint8_t coil_tracks[FRAMES][EK_COIL_TRACK_MAX];

/* A card for each frame: its record as every call finds it, and the rest. */
static uint8_t records[FRAMES][EK_CARD_RECORD];
static uint8_t memories[FRAMES][BLOCKS * SIZE];
static uint8_t locks[FRAMES][BLOCKS];
static uint8_t sealed[4 + 2];

/* Takes every answer, so that no call can be left out. */
static volatile uint64_t sink;

/* Bytes without order, the same in every run. */
static void fill(uint8_t *bytes, size_t length)
{
    static uint32_t x = 15693;
    for (size_t i = 0; i < length; i++) {
        x ^= x << 13;
        x ^= x >> 17;
        x ^= x << 5;
        bytes[i] = (uint8_t)(x >> 24);
    }
}

static void fill_frames(void)
{
    for (size_t f = 0; f < FRAMES; f++) {
        fill(frames[f], EK_FRAME_MAX);
    }
    for (size_t f = 0; f < FRAMES; f++) {
        fill(answers[f], sizeof answers[f]);
    }
}

static void fill_tracks(const struct row *row)
{
    for (size_t f = 0; f < FRAMES; f++) {
        track_length = (size_t)plain_code(frames[f], row->length, row->coding,
                                          tracks[f], EK_TRACK_MAX);
    }
}

static void fill_coil_tracks(const struct row *row)
{
    for (size_t f = 0; f < FRAMES; f++) {
        track_length =
            (size_t)plain_coil_code(answers[f], row->length, coil_tracks[f],
                                    EK_COIL_TRACK_MAX);
        if (row->task == COIL_CLASH) {
            coil_tracks[f][track_length - 2] |= 0x03;
        }
    }
}

/* Cards of family 30 in slot 4 of a sequence, which speak in slot 5; a frame
 * ends it. */
static void fill_cards(void)
{
    for (size_t f = 0; f < FRAMES; f++) {
        memcpy(records[f] + EK_CARD_UID, frames[f], 8);
        records[f][EK_CARD_UID] = (uint8_t)(16 * f + 5);
        records[f][EK_CARD_BLOCKS] = BLOCKS;
        records[f][EK_CARD_SIZE] = SIZE;
        records[f][EK_CARD_AFI] = 0x31;
        records[f][EK_CARD_SEQUENCE] = 1;
        records[f][EK_CARD_SLOT] = 4;
        for (size_t i = 0; i < sizeof memories[f]; i++) {
            memories[f][i] = frames[f][i % EK_FRAME_MAX];
        }
        locks[f][f] = 1;
    }
}

static void fill_message(const struct row *row)
{
    memcpy(sealed, row->message, row->length);
    ek_seal(sealed, sizeof sealed, row->length);
}

static const char *name(size_t i)
{
    return ROWS[i].name;
}

static bool has_best(size_t i)
{
    enum task task = ROWS[i].task;
    return task == DECODE || task == COIL_CODE || task == COIL_DECODE ||
           task == COIL_CLASH;
}

/* What a row's turn works on. */
static void prepare(size_t i)
{
    const struct row *row = &ROWS[i];
    switch (row->task) {
    case CHECK:
    case CHECK_BY_BITS:
    case CODE:
    case DECODE:
        fill_tracks(row);
        break;
    case COIL_CODE:
    case COIL_DECODE:
    case COIL_CLASH:
        fill_coil_tracks(row);
        break;
    case FRAME:
        fill_message(row);
        break;
    case MARK:
        break;
    }
}

/* A pass takes all frames. */
static double turn(size_t i, enum who who, unsigned passes)
{
    const struct row *row = &ROWS[i];
    const struct side *side = &SIDES[who];
    uint8_t frame[EK_FRAME_MAX], record[EK_CARD_RECORD], answer[ROOM];
    static uint8_t coil_answer[EK_ANSWER_MAX];
    uint64_t sum = 0;
    double start = now_ns();
    for (unsigned pass = 0; pass < passes; pass++) {
        for (size_t f = 0; f < FRAMES; f++) {
            switch (row->task) {
            case CHECK:
                sum += side->check(frames[f], row->length);
                break;
            case CHECK_BY_BITS:
                sum += side->check_by_bits(frames[f], row->length);
                break;
            case CODE:
                sum += (uint64_t)side->code(frames[f], row->length, row->coding,
                                            tracks[f], EK_TRACK_MAX);
                break;
            case DECODE:
                sum += (uint64_t)side->decode(tracks[f], track_length, frame,
                                              sizeof frame);
                sum += frame[0];
                break;
            case COIL_CODE:
                sum += (uint64_t)side->coil_code(answers[f], row->length,
                                                 coil_tracks[f],
                                                 EK_COIL_TRACK_MAX);
                break;
            case COIL_DECODE:
            case COIL_CLASH:
                sum += (uint64_t)side->coil_decode(coil_tracks[f], track_length,
                                                   coil_answer,
                                                   sizeof coil_answer);
                sum += coil_answer[0];
                break;
            case FRAME:
                memcpy(record, records[f], sizeof record);
                sum += (uint64_t)side->frame(
                    record, sizeof record, sealed, row->length + 2, memories[f],
                    sizeof memories[f], locks[f], BLOCKS, answer, ROOM);
                sum += record[EK_CARD_SLOT];
                break;
            case MARK:
                memcpy(record, records[f], sizeof record);
                sum += (uint64_t)side->mark(record, sizeof record, memories[f],
                                            sizeof memories[f], locks[f],
                                            BLOCKS, answer, ROOM);
                sum += record[EK_CARD_SLOT];
                break;
            }
        }
    }
    double spent = now_ns() - start;
    sink += sum;
    return spent;
}

int main(int count, char **given)
{
    bool timed = asked_for_times(count, given);
    fill_frames();
    must_check_same();
    for (size_t f = 0; f < FRAMES; f++) {
        must_be_same(frames[f]);
    }
    must_refuse_same(frames[0]);
    must_be_same_on_coil(answers[0]);
    must_play_same();
    if (timed) {
        fill_cards();
        compete(&(struct contest){ROW_COUNT, FRAMES, name, has_best, prepare,
                                  turn});
    }
    return 0;
}

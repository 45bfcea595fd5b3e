#include "same.h"

#include <stdbool.h>
#include <stdio.h>
#include <stdlib.h>
#include <string.h>

#include "best.h"
#include "espenknoten.h"
#include "plain.h"

/* Stands in every room before a call, so that a stray write is seen. */
#define FILL 0xA5

static void must(bool holds, const char *what)
{
    if (!holds) {
        fprintf(stderr, "bench: ours and plain differ: %s\n", what);
        exit(1);
    }
}

static void check(const uint8_t *bytes, size_t length)
{
    uint16_t x = ek_check(bytes, length);
    must(x == plain_check(bytes, length), "check");
    must(x == plain_check_by_bits(bytes, length), "check, bit by bit");
}

void must_check_same(void)
{
    for (int value = 0; value <= UINT8_MAX; value++) {
        check(&(uint8_t){(uint8_t)value}, 1);
    }
}

/* Returns the answer, and leaves the track in the caller's buffer. */
static int64_t code(const uint8_t *frame, size_t length, uint32_t coding,
                    uint8_t *track, size_t room)
{
    static uint8_t other[EK_TRACK_MAX];
    memset(track, FILL, EK_TRACK_MAX);
    memset(other, FILL, EK_TRACK_MAX);
    int64_t answer = ek_code(frame, length, coding, track, room);
    must(answer == plain_code(frame, length, coding, other, room),
         "coder's answer");
    must(memcmp(track, other, EK_TRACK_MAX) == 0, "coder's track");
    return answer;
}

static void decode(const uint8_t *track, size_t length, size_t room)
{
    uint8_t frame[EK_FRAME_MAX], other[EK_FRAME_MAX], third[EK_FRAME_MAX];
    memset(frame, FILL, sizeof frame);
    memset(other, FILL, sizeof other);
    memset(third, FILL, sizeof third);
    int64_t answer = ek_decode(track, length, frame, room);
    must(answer == plain_decode(track, length, other, room),
         "decoder's answer");
    must(memcmp(frame, other, sizeof frame) == 0, "decoder's frame");
    must(answer == best_decode(track, length, third, room),
         "best decoder's answer");
    must(memcmp(frame, third, sizeof frame) == 0, "best decoder's frame");
}

void must_be_same(const uint8_t *frame)
{
    static uint8_t track[EK_TRACK_MAX];
    for (size_t length = 0; length <= EK_FRAME_MAX; length++) {
        check(frame, length);
        for (uint32_t coding = 0; coding <= EK_ONE_OF_256; coding++) {
            int64_t n = code(frame, length, coding, track, sizeof track);
            decode(track, (size_t)n, EK_FRAME_MAX);
        }
    }
}

/* The track cut short everywhere, and with each bit of it turned. */
static void damage(uint8_t *track, size_t length)
{
    for (size_t i = 0; i < length; i++) {
        decode(track, i, EK_FRAME_MAX);
        for (int bit = 0; bit < 8; bit++) {
            track[i] ^= (uint8_t)(1 << bit);
            decode(track, length, EK_FRAME_MAX);
            track[i] ^= (uint8_t)(1 << bit);
        }
    }
}

/* The track with every value in every byte of it. */
static void fill_in(uint8_t *track, size_t length)
{
    for (size_t i = 0; i < length; i++) {
        uint8_t was = track[i];
        for (int value = 0; value <= UINT8_MAX; value++) {
            track[i] = (uint8_t)value;
            decode(track, length, EK_FRAME_MAX);
        }
        track[i] = was;
    }
}

/* A track with one unit more than a frame has bytes, all of them the first. */
static void overlong(const uint8_t *frame, uint32_t coding)
{
    static uint8_t track[EK_TRACK_ONE_OF_256(EK_FRAME_MAX + 1)];
    size_t length = (size_t)code(frame, 1, coding, track, EK_TRACK_MAX);
    size_t unit = length - 2;
    uint8_t end = track[length - 1];
    for (size_t i = 1; i <= EK_FRAME_MAX; i++) {
        memcpy(track + 1 + unit * i, track + 1, unit);
    }
    length = 2 + unit * (EK_FRAME_MAX + 1);
    track[length - 1] = end;
    decode(track, length, EK_FRAME_MAX);
}

void must_refuse_same(const uint8_t *frame)
{
    static uint8_t track[EK_TRACK_MAX];
    const uint8_t slot_mark[] = {0x20};
    for (size_t length = 0; length <= EK_FRAME_MAX; length += 8) {
        for (uint32_t coding = 0; coding <= EK_ONE_OF_256 + 1; coding++) {
            size_t short_4 = EK_TRACK_ONE_OF_4(length) - 1;
            size_t short_256 = EK_TRACK_ONE_OF_256(length) - 1;
            code(frame, length, coding, track, short_4);
            code(frame, length, coding, track, short_256);
            int64_t n = code(frame, length, coding, track, sizeof track);
            if (n > 0) {
                decode(track, (size_t)n, EK_FRAME_MAX - 1);
                damage(track, (size_t)n);
            }
            if (n > 0 && length == 8) {
                fill_in(track, (size_t)n);
            }
        }
    }
    overlong(frame, EK_ONE_OF_4);
    overlong(frame, EK_ONE_OF_256);
    /* Numbers that would be codings if their upper bits were lost. */
    code(frame, EK_FRAME_MAX, 256 + EK_ONE_OF_4, track, sizeof track);
    code(frame, EK_FRAME_MAX, 65536 + EK_ONE_OF_256, track, sizeof track);
    decode(slot_mark, sizeof slot_mark, EK_FRAME_MAX);
    decode(slot_mark, sizeof slot_mark, EK_FRAME_MAX - 1);
}

/* What is past the longest track, or answer, is looked at too. */
#define COIL_TRACK_ROOM (EK_COIL_TRACK_MAX + 2)
#define ANSWER_ROOM (EK_ANSWER_MAX + 1)

/* Returns the answer, and leaves the track in the caller's buffer. */
static int64_t coil_code(const uint8_t *answer, size_t length, uint8_t *track,
                         size_t room)
{
    static uint8_t other[COIL_TRACK_ROOM], third[COIL_TRACK_ROOM];
    memset(track, FILL, COIL_TRACK_ROOM);
    memset(other, FILL, COIL_TRACK_ROOM);
    memset(third, FILL, COIL_TRACK_ROOM);
    int64_t n = ek_coil_code(answer, length, track, room);
    must(n == plain_coil_code(answer, length, other, room),
         "coil coder's answer");
    must(memcmp(track, other, COIL_TRACK_ROOM) == 0, "coil coder's track");
    must(n == best_coil_code(answer, length, third, room),
         "best coil coder's answer");
    must(memcmp(track, third, COIL_TRACK_ROOM) == 0,
         "best coil coder's track");
    return n;
}

static int64_t coil_decode(const uint8_t *track, size_t length, size_t room)
{
    static uint8_t answer[ANSWER_ROOM], other[ANSWER_ROOM], third[ANSWER_ROOM];
    memset(answer, FILL, sizeof answer);
    memset(other, FILL, sizeof other);
    memset(third, FILL, sizeof third);
    int64_t n = ek_coil_decode(track, length, answer, room);
    must(n == plain_coil_decode(track, length, other, room),
         "coil decoder's answer");
    must(memcmp(answer, other, sizeof answer) == 0, "coil decoder's bytes");
    must(n == best_coil_decode(track, length, third, room),
         "best coil decoder's answer");
    must(memcmp(answer, third, sizeof answer) == 0,
         "best coil decoder's bytes");
    return n;
}

/* The track with every value in every byte of it, and two bytes turned over. */
static void coil_damage(uint8_t *track, size_t length)
{
    for (size_t i = 0; i < length; i++) {
        uint8_t was = track[i];
        for (int value = 0; value <= UINT8_MAX; value++) {
            track[i] = (uint8_t)value;
            coil_decode(track, length, EK_ANSWER_MAX);
        }
        for (size_t j = i + 1; j < length; j += 5) {
            track[j] ^= 0xFF;
            coil_decode(track, length, EK_ANSWER_MAX);
            track[j] ^= 0xFF;
        }
        track[i] = was;
    }
}

/* The lengths that are damaged: short ones, and past what peers do at once. */
static bool is_damaged(size_t n)
{
    return n == EK_ANSWER_MIN || n == 12 || n == 33 || n == 70;
}

/* The first n bytes of the answer: coded, read back, and in every way refused.
 * Their last bit clashes, and then bits before it are lost. */
static void coil_there_and_back(const uint8_t *answer, size_t n)
{
    static uint8_t track[COIL_TRACK_ROOM];
    int64_t coded = coil_code(answer, n, track, EK_COIL_TRACK_MAX);
    must(coded == (int64_t)EK_COIL_TRACK(n), "an answer is not coded");
    size_t length = (size_t)coded;
    must(coil_decode(track, length, EK_ANSWER_MAX) == (int64_t)n,
         "a track is not read");
    coil_decode(track, length, EK_ANSWER_MAX - 1);
    coil_decode(track, length - 1, EK_ANSWER_MAX);
    if (is_damaged(n)) {
        coil_damage(track, length);
    }
    track[length - 2] |= 0x03;
    must(coil_decode(track, length, EK_ANSWER_MAX) ==
             131072 * EK_COIL_CLASH + (int64_t)(8 * n - 1),
         "a clash in the last bit is not found");
    track[length / 2] = 0;
    coil_decode(track, length, EK_ANSWER_MAX);
    coil_code(answer, n, track, length - 1);
}

/* A track of so many bytes, with nothing but bits 0 in it. */
static void coil_of_length(size_t length)
{
    static uint8_t track[COIL_TRACK_ROOM];
    memset(track, 0xAA, sizeof track);
    track[0] = EK_COIL_START;
    track[length - 1] = EK_COIL_END;
    coil_decode(track, length, EK_ANSWER_MAX);
}

void must_be_same_on_coil(const uint8_t *answer)
{
    static uint8_t track[COIL_TRACK_ROOM];
    for (size_t n = 0; n < EK_ANSWER_MIN; n++) {
        coil_code(answer, n, track, 0);
    }
    for (size_t n = EK_ANSWER_MIN; n < 600; n++) {
        coil_there_and_back(answer, n);
    }
    coil_there_and_back(answer, EK_ANSWER_MAX - 1);
    coil_there_and_back(answer, EK_ANSWER_MAX);
    coil_code(answer, EK_ANSWER_MAX + 1, track, 0);
    coil_decode(track, 0, EK_ANSWER_MAX);
    for (size_t length = 1; length < 40; length++) {
        coil_of_length(length);
        coil_of_length(EK_COIL_TRACK_MAX + 3 - length);
    }
}

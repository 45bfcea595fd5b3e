/*
 * A decoder that was made for speed: it reads the track once, into a frame of
 * its own, which it hands over where the whole track was right. 1 of 4 has a
 * table; 1 of 256 looks at eight bytes at a time. No jump within a unit
 * depends on the byte that it stands for.
 *
 * For the coil there are a coder and a decoder. Short answers go by tables, and
 * their decoder too reads once; long ones go by shifts and masks in loops that
 * a compiler makes many bytes at a time of.
 */
#include "best.h"

#include <stdbool.h>
#include <string.h>

#include "espenknoten.h"

#define START_ONE_OF_4 0x84
#define START_ONE_OF_256 0x81
#define END 0x20

/* What a unit that stands for no byte reads as. */
#define NONE 256

#define UNIT_ONE_OF_4 4
#define UNIT_ONE_OF_256 64
#define WORD 8

/* A track byte's bit pair, with PATTERN beside it; 0 for no pattern. */
#define PATTERN 0x100
static const uint16_t PAIRS[256] = {
    [0x40] = PATTERN | 0,
    [0x10] = PATTERN | 1,
    [0x04] = PATTERN | 2,
    [0x01] = PATTERN | 3,
};

/* PATTERN of all four bytes of a unit, each shifted as its pair is. */
#define PATTERNS (PATTERN | PATTERN << 2 | PATTERN << 4 | PATTERN << 6)

static int64_t decode_one_of_4(const uint8_t *units, size_t size,
                               uint8_t *frame)
{
    uint8_t found[EK_FRAME_MAX];
    size_t n = size / UNIT_ONE_OF_4;
    unsigned all = PATTERNS;
    if (size % UNIT_ONE_OF_4 != 0 || n > EK_FRAME_MAX) {
        return EK_REFUSED_NO_TRACK;
    }
    for (size_t i = 0; i < n; i++) {
        const uint8_t *unit = units + UNIT_ONE_OF_4 * i;
        unsigned a = PAIRS[unit[0]];
        unsigned b = PAIRS[unit[1]];
        unsigned c = PAIRS[unit[2]];
        unsigned d = PAIRS[unit[3]];
        unsigned quad = a | b << 2 | c << 4 | d << 6;
        all &= quad;
        found[i] = (uint8_t)quad;
    }
    if (all != PATTERNS) {
        return EK_REFUSED_NO_TRACK;
    }
    memcpy(frame, found, n);
    return EK_ONE_OF_4 * 65536 + (int64_t)n;
}

/* Whether one of eight bytes is not 00: the same in any order of bytes. */
static unsigned filled_at(const uint8_t *bytes)
{
    uint64_t word;
    memcpy(&word, bytes, sizeof word);
    return word != 0;
}

/* The first byte lowest: a compiler makes one read of it. */
static uint64_t word_at(const uint8_t *bytes)
{
    return (uint64_t)bytes[0] | (uint64_t)bytes[1] << 8 |
           (uint64_t)bytes[2] << 16 | (uint64_t)bytes[3] << 24 |
           (uint64_t)bytes[4] << 32 | (uint64_t)bytes[5] << 40 |
           (uint64_t)bytes[6] << 48 | (uint64_t)bytes[7] << 56;
}

/* The bits of a word that are set in a pattern, and those whose pattern stands
 * for an odd pair, for a pair over 1, and whose place in the word has bit 0, 1
 * or 2. */
#define BIT_OF_PATTERN UINT64_C(0x5555555555555555)
#define BIT_OF_ODD_PAIR UINT64_C(0x1111111111111111)
#define BIT_OF_HIGH_PAIR UINT64_C(0x0505050505050505)
#define BIT_OF_PLACE_0 UINT64_C(0xFF00FF00FF00FF00)
#define BIT_OF_PLACE_1 UINT64_C(0xFFFF0000FFFF0000)
#define BIT_OF_PLACE_2 UINT64_C(0xFFFFFFFF00000000)

/* The byte of 64 track bytes, of which one is not 00, or NONE. */
static unsigned lone_at(const uint8_t *unit)
{
    unsigned count = 0, place = 0;
    for (unsigned i = 0; i < UNIT_ONE_OF_256 / WORD; i++) {
        unsigned filled = filled_at(unit + WORD * i);
        count += filled;
        place |= filled ? i : 0;
    }
    uint64_t word = word_at(unit + WORD * place);
    /* one bit alone, and one that is set in a pattern */
    if (count != 1 || (word & ((word - 1) | ~BIT_OF_PATTERN)) != 0) {
        return NONE;
    }
    return place << 5 | (unsigned)((word & BIT_OF_PLACE_2) != 0) << 4 |
           (unsigned)((word & BIT_OF_PLACE_1) != 0) << 3 |
           (unsigned)((word & BIT_OF_PLACE_0) != 0) << 2 |
           (unsigned)((word & BIT_OF_HIGH_PAIR) != 0) << 1 |
           (unsigned)((word & BIT_OF_ODD_PAIR) != 0);
}

static int64_t decode_one_of_256(const uint8_t *units, size_t size,
                                 uint8_t *frame)
{
    uint8_t found[EK_FRAME_MAX];
    size_t n = size / UNIT_ONE_OF_256;
    if (size % UNIT_ONE_OF_256 != 0 || n > EK_FRAME_MAX) {
        return EK_REFUSED_NO_TRACK;
    }
    for (size_t i = 0; i < n; i++) {
        unsigned byte = lone_at(units + UNIT_ONE_OF_256 * i);
        if (byte == NONE) {
            return EK_REFUSED_NO_TRACK;
        }
        found[i] = (uint8_t)byte;
    }
    memcpy(frame, found, n);
    return EK_ONE_OF_256 * 65536 + (int64_t)n;
}

int64_t best_decode(const uint8_t *track, size_t length, uint8_t *frame,
                    size_t room)
{
    if (room < EK_FRAME_MAX) {
        return EK_REFUSED_ROOM;
    }
    if (length == 1 && track[0] == END) {
        return EK_SLOT_MARK * 65536;
    }
    if (length < 2 || track[length - 1] != END) {
        return EK_REFUSED_NO_TRACK;
    }
    if (track[0] == START_ONE_OF_4) {
        return decode_one_of_4(track + 1, length - 2, frame);
    }
    if (track[0] == START_ONE_OF_256) {
        return decode_one_of_256(track + 1, length - 2, frame);
    }
    return EK_REFUSED_NO_TRACK;
}

/* The longest answer that goes by tables. */
#define SHORT 64

/* The two track bytes of each byte. A pair 10 less a bit 1 is 01. */
#define HALF(v)                                                                \
    (0xAA - (((v)&1) << 6 | ((v)&2) << 3 | ((v)&4) | ((v)&8) >> 3))
#define HALVES(v) {HALF(v), HALF((v) >> 4)}
#define HALVES_4(v) HALVES(v), HALVES((v) + 1), HALVES((v) + 2), HALVES((v) + 3)
#define HALVES_16(v)                                                           \
    HALVES_4(v), HALVES_4((v) + 4), HALVES_4((v) + 8), HALVES_4((v) + 12)
#define HALVES_64(v)                                                           \
    HALVES_16(v), HALVES_16((v) + 16), HALVES_16((v) + 32), HALVES_16((v) + 48)
static const uint8_t TRACKS[256][2] = {HALVES_64(0), HALVES_64(64),
                                       HALVES_64(128), HALVES_64(192)};

int64_t best_coil_code(const uint8_t *restrict answer, size_t length,
                       uint8_t *restrict track, size_t room)
{
    if (length < EK_ANSWER_MIN || length > EK_ANSWER_MAX) {
        return EK_REFUSED_ANSWER_LENGTH;
    }
    size_t n = EK_COIL_TRACK(length);
    if (room < n) {
        return EK_REFUSED_ROOM;
    }
    track[0] = EK_COIL_START;
    if (length <= SHORT) {
        for (size_t i = 0; i < length; i++) {
            memcpy(track + 1 + 2 * i, TRACKS[answer[i]], 2);
        }
    } else {
        for (size_t i = 0; i < length; i++) {
            /* the bits in the order 4 0 5 1 6 2 7 3 from the top */
            uint8_t v = answer[i];
            uint8_t all = (uint8_t)((v & 0x24) | (v & 0x01) << 6 |
                                    (v & 0x12) << 3 | (v & 0x48) >> 3 |
                                    (v & 0x80) >> 6);
            track[1 + 2 * i] = (uint8_t)(0xAA - (all & 0x55));
            track[2 + 2 * i] = (uint8_t)(0xAA - (all >> 1 & 0x55));
        }
    }
    track[n - 1] = EK_COIL_END;
    return (int64_t)n;
}

/* A track byte's four bits, with FOUR beside them; 0 where a pair is bad. */
#define FOUR 0x100
static const uint16_t FOURS[256] = {
    [0xAA] = FOUR | 0x0, [0x6A] = FOUR | 0x1, [0x9A] = FOUR | 0x2,
    [0x5A] = FOUR | 0x3, [0xA6] = FOUR | 0x4, [0x66] = FOUR | 0x5,
    [0x96] = FOUR | 0x6, [0x56] = FOUR | 0x7, [0xA9] = FOUR | 0x8,
    [0x69] = FOUR | 0x9, [0x99] = FOUR | 0xA, [0x59] = FOUR | 0xB,
    [0xA5] = FOUR | 0xC, [0x65] = FOUR | 0xD, [0x95] = FOUR | 0xE,
    [0x55] = FOUR | 0xF,
};

/* FOUR of both bytes of a pair of them. */
#define EIGHT (FOUR | FOUR << 4)

/* Reads n bytes, SHORT at the most; false, and nothing is written, where a bit
 * is bad. */
static bool read_short(const uint8_t *restrict pairs, size_t n,
                       uint8_t *restrict answer)
{
    uint8_t found[SHORT];
    unsigned all = EIGHT;
    for (size_t i = 0; i < n; i++) {
        unsigned byte = FOURS[pairs[2 * i]] | FOURS[pairs[2 * i + 1]] << 4;
        all &= byte;
        found[i] = (uint8_t)byte;
    }
    if (all != EIGHT) {
        return false;
    }
    memcpy(answer, found, n);
    return true;
}

/* Whether the units of each pair of a byte differ. */
#define GOOD 0x55
#define DIFFERING(b) ((b) ^ (b) >> 1)

/* How many bytes are looked at before the first question. */
#define STRETCH 256

/* How many of n bytes are passed before the first bad one. */
static size_t good_bytes(const uint8_t *bytes, size_t n)
{
    size_t i = 0;
    while (n - i >= STRETCH) {
        uint8_t all = GOOD;
        for (size_t k = 0; k < STRETCH; k++) {
            all &= (uint8_t)DIFFERING(bytes[i + k]);
        }
        if (all != GOOD) {
            break;
        }
        i += STRETCH;
    }
    while (i < n && (DIFFERING(bytes[i]) & GOOD) == GOOD) {
        i++;
    }
    return i;
}

static void read_long(const uint8_t *restrict pairs, size_t n,
                      uint8_t *restrict answer)
{
    for (size_t i = 0; i < n; i++) {
        /* the bits in the order 4 0 5 1 6 2 7 3 from the top */
        uint8_t all = (uint8_t)((pairs[2 * i] & GOOD) |
                                (pairs[2 * i + 1] & GOOD) << 1);
        answer[i] =
            (uint8_t)((all & 0x24) | (all >> 6 & 0x01) | (all >> 3 & 0x12) |
                      (all << 3 & 0x48) | (all << 6 & 0x80));
    }
}

int64_t best_coil_decode(const uint8_t *restrict track, size_t length,
                         uint8_t *restrict answer, size_t room)
{
    if (room < EK_ANSWER_MAX) {
        return EK_REFUSED_ROOM;
    }
    if (length < EK_COIL_TRACK(EK_ANSWER_MIN) || length > EK_COIL_TRACK_MAX ||
        length % 2 != 0 || track[0] != EK_COIL_START ||
        track[length - 1] != EK_COIL_END) {
        return EK_REFUSED_NO_ANSWER_TRACK;
    }
    const uint8_t *pairs = track + 1;
    size_t n = (length - 2) / 2;
    if (n <= SHORT && read_short(pairs, n, answer)) {
        return (int64_t)n;
    }
    size_t i = good_bytes(pairs, 2 * n);
    if (i == 2 * n) {
        read_long(pairs, n, answer);
        return (int64_t)n;
    }
    size_t bit = 0;
    while ((DIFFERING(pairs[i]) >> (6 - 2 * bit) & 1) != 0) {
        bit++;
    }
    bool pulse = pairs[i] >> (6 - 2 * bit) & 1;
    return 131072 * (pulse ? EK_COIL_CLASH : EK_COIL_LOST) +
           (int64_t)(4 * i + bit);
}

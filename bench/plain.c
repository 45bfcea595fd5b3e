/*
 * The form of the library in plain C: the check a byte at a time by a table,
 * the rest by shifts and masks, and decoders that look at the whole track
 * before they write. It looks for the pause of a 1 of 256 unit byte by byte,
 * where the library passes eight bytes 00 at a time; a coil's track it passes
 * sixteen bytes at a time, as the library does.
 *
 * The check stands here bit by bit too, for rows of its own. No other plain
 * file calls that one.
 */
#include "plain.h"

#include <stdbool.h>
#include <string.h>

#include "espenknoten.h"

#define START_ONE_OF_4 0x84
#define START_ONE_OF_256 0x81
#define END 0x20

/* What a unit that stands for no byte reads as. */
#define NONE 256

/* What eight bits make of a register that holds the place of the entry. */
static const uint16_t CHECK_TABLE[256] = {
    0x0000, 0x1189, 0x2312, 0x329b, 0x4624, 0x57ad, 0x6536, 0x74bf,
    0x8c48, 0x9dc1, 0xaf5a, 0xbed3, 0xca6c, 0xdbe5, 0xe97e, 0xf8f7,
    0x1081, 0x0108, 0x3393, 0x221a, 0x56a5, 0x472c, 0x75b7, 0x643e,
    0x9cc9, 0x8d40, 0xbfdb, 0xae52, 0xdaed, 0xcb64, 0xf9ff, 0xe876,
    0x2102, 0x308b, 0x0210, 0x1399, 0x6726, 0x76af, 0x4434, 0x55bd,
    0xad4a, 0xbcc3, 0x8e58, 0x9fd1, 0xeb6e, 0xfae7, 0xc87c, 0xd9f5,
    0x3183, 0x200a, 0x1291, 0x0318, 0x77a7, 0x662e, 0x54b5, 0x453c,
    0xbdcb, 0xac42, 0x9ed9, 0x8f50, 0xfbef, 0xea66, 0xd8fd, 0xc974,
    0x4204, 0x538d, 0x6116, 0x709f, 0x0420, 0x15a9, 0x2732, 0x36bb,
    0xce4c, 0xdfc5, 0xed5e, 0xfcd7, 0x8868, 0x99e1, 0xab7a, 0xbaf3,
    0x5285, 0x430c, 0x7197, 0x601e, 0x14a1, 0x0528, 0x37b3, 0x263a,
    0xdecd, 0xcf44, 0xfddf, 0xec56, 0x98e9, 0x8960, 0xbbfb, 0xaa72,
    0x6306, 0x728f, 0x4014, 0x519d, 0x2522, 0x34ab, 0x0630, 0x17b9,
    0xef4e, 0xfec7, 0xcc5c, 0xddd5, 0xa96a, 0xb8e3, 0x8a78, 0x9bf1,
    0x7387, 0x620e, 0x5095, 0x411c, 0x35a3, 0x242a, 0x16b1, 0x0738,
    0xffcf, 0xee46, 0xdcdd, 0xcd54, 0xb9eb, 0xa862, 0x9af9, 0x8b70,
    0x8408, 0x9581, 0xa71a, 0xb693, 0xc22c, 0xd3a5, 0xe13e, 0xf0b7,
    0x0840, 0x19c9, 0x2b52, 0x3adb, 0x4e64, 0x5fed, 0x6d76, 0x7cff,
    0x9489, 0x8500, 0xb79b, 0xa612, 0xd2ad, 0xc324, 0xf1bf, 0xe036,
    0x18c1, 0x0948, 0x3bd3, 0x2a5a, 0x5ee5, 0x4f6c, 0x7df7, 0x6c7e,
    0xa50a, 0xb483, 0x8618, 0x9791, 0xe32e, 0xf2a7, 0xc03c, 0xd1b5,
    0x2942, 0x38cb, 0x0a50, 0x1bd9, 0x6f66, 0x7eef, 0x4c74, 0x5dfd,
    0xb58b, 0xa402, 0x9699, 0x8710, 0xf3af, 0xe226, 0xd0bd, 0xc134,
    0x39c3, 0x284a, 0x1ad1, 0x0b58, 0x7fe7, 0x6e6e, 0x5cf5, 0x4d7c,
    0xc60c, 0xd785, 0xe51e, 0xf497, 0x8028, 0x91a1, 0xa33a, 0xb2b3,
    0x4a44, 0x5bcd, 0x6956, 0x78df, 0x0c60, 0x1de9, 0x2f72, 0x3efb,
    0xd68d, 0xc704, 0xf59f, 0xe416, 0x90a9, 0x8120, 0xb3bb, 0xa232,
    0x5ac5, 0x4b4c, 0x79d7, 0x685e, 0x1ce1, 0x0d68, 0x3ff3, 0x2e7a,
    0xe70e, 0xf687, 0xc41c, 0xd595, 0xa12a, 0xb0a3, 0x8238, 0x93b1,
    0x6b46, 0x7acf, 0x4854, 0x59dd, 0x2d62, 0x3ceb, 0x0e70, 0x1ff9,
    0xf78f, 0xe606, 0xd49d, 0xc514, 0xb1ab, 0xa022, 0x92b9, 0x8330,
    0x7bc7, 0x6a4e, 0x58d5, 0x495c, 0x3de3, 0x2c6a, 0x1ef1, 0x0f78,
};

uint16_t plain_check(const uint8_t *bytes, size_t length)
{
    unsigned x = 0xffff;
    for (size_t i = 0; i < length; i++) {
        x = x >> 8 ^ CHECK_TABLE[(x ^ bytes[i]) & 0xff];
    }
    return (uint16_t)~x;
}

uint16_t plain_check_by_bits(const uint8_t *bytes, size_t length)
{
    unsigned x = 0xffff;
    for (size_t i = 0; i < length; i++) {
        x ^= bytes[i];
        for (int bit = 0; bit < 8; bit++) {
            if (x & 1) {
                x = (x >> 1) ^ 0x8408;
            } else {
                x >>= 1;
            }
        }
    }
    return (uint16_t)~x;
}

/* The pause pattern of the lowest bit pair of v. */
static uint8_t pattern_of(unsigned v)
{
    return 0x40 >> (2 * (v & 3));
}

static void code_one_of_4(const uint8_t *frame, size_t length, uint8_t *units)
{
    for (size_t i = 0; i < length; i++) {
        uint8_t v = frame[i];
        units[4 * i] = pattern_of(v);
        units[4 * i + 1] = pattern_of(v >> 2);
        units[4 * i + 2] = pattern_of(v >> 4);
        units[4 * i + 3] = pattern_of(v >> 6);
    }
}

static void code_one_of_256(const uint8_t *frame, size_t length, uint8_t *units)
{
    for (size_t i = 0; i < length; i++) {
        uint8_t v = frame[i];
        memset(units + 64 * i, 0, 64);
        units[64 * i + (v >> 2)] = pattern_of(v);
    }
}

int64_t plain_code(const uint8_t *frame, size_t length, uint32_t coding,
                   uint8_t *track, size_t room)
{
    if (length > EK_FRAME_MAX || coding > EK_ONE_OF_256) {
        return EK_REFUSED_FRAME_OR_CODING;
    }
    size_t n = coding == EK_ONE_OF_4 ? EK_TRACK_ONE_OF_4(length)
                                     : EK_TRACK_ONE_OF_256(length);
    if (room < n) {
        return EK_REFUSED_ROOM;
    }
    if (coding == EK_ONE_OF_4) {
        track[0] = START_ONE_OF_4;
        code_one_of_4(frame, length, track + 1);
    } else {
        track[0] = START_ONE_OF_256;
        code_one_of_256(frame, length, track + 1);
    }
    track[n - 1] = END;
    return (int64_t)n;
}

/* The bit pair whose pattern is b, or 4 for none. */
static unsigned pair_of(uint8_t b)
{
    unsigned high = (b | b >> 2) & 1;
    unsigned low = (b | b >> 4) & 1;
    unsigned pair = high << 1 | low;
    return pattern_of(pair) == b ? pair : 4;
}

/* 1 of 4: the byte of four track bytes, or NONE. */
static unsigned quad_at(const uint8_t *unit)
{
    unsigned a = pair_of(unit[0]);
    unsigned b = pair_of(unit[1]);
    unsigned c = pair_of(unit[2]);
    unsigned d = pair_of(unit[3]);
    if (a > 3 || b > 3 || c > 3 || d > 3) {
        return NONE;
    }
    return a | b << 2 | c << 4 | d << 6;
}

/* 1 of 256: the byte of 64 track bytes, of which one is not 00, or NONE. */
static unsigned lone_at(const uint8_t *unit)
{
    size_t place = 0;
    while (place < 64 && unit[place] == 0) {
        place++;
    }
    if (place == 64) {
        return NONE;
    }
    unsigned pair = pair_of(unit[place]);
    if (pair > 3) {
        return NONE;
    }
    for (size_t i = place + 1; i < 64; i++) {
        if (unit[i] != 0) {
            return NONE;
        }
    }
    return 4 * (unsigned)place + pair;
}

static int64_t decode_one_of_4(const uint8_t *units, size_t size,
                               uint8_t *frame)
{
    size_t n = size / 4;
    if (size % 4 != 0 || n > EK_FRAME_MAX) {
        return EK_REFUSED_NO_TRACK;
    }
    for (size_t i = 0; i < n; i++) {
        if (quad_at(units + 4 * i) == NONE) {
            return EK_REFUSED_NO_TRACK;
        }
    }
    for (size_t i = 0; i < n; i++) {
        frame[i] = (uint8_t)quad_at(units + 4 * i);
    }
    return EK_ONE_OF_4 * 65536 + (int64_t)n;
}

static int64_t decode_one_of_256(const uint8_t *units, size_t size,
                                 uint8_t *frame)
{
    size_t n = size / 64;
    if (size % 64 != 0 || n > EK_FRAME_MAX) {
        return EK_REFUSED_NO_TRACK;
    }
    for (size_t i = 0; i < n; i++) {
        if (lone_at(units + 64 * i) == NONE) {
            return EK_REFUSED_NO_TRACK;
        }
    }
    for (size_t i = 0; i < n; i++) {
        frame[i] = (uint8_t)lone_at(units + 64 * i);
    }
    return EK_ONE_OF_256 * 65536 + (int64_t)n;
}

int64_t plain_decode(const uint8_t *track, size_t length, uint8_t *frame,
                     size_t room)
{
    if (room < EK_FRAME_MAX) {
        return EK_REFUSED_ROOM;
    }
    if (length == 1 && track[0] == END) {
        return EK_SLOT_MARK * 65536;
    }
    if (length < 2 || track[length - 1] != END) {
        return EK_REFUSED_NO_TRACK;
    }
    if (track[0] == START_ONE_OF_4) {
        return decode_one_of_4(track + 1, length - 2, frame);
    }
    if (track[0] == START_ONE_OF_256) {
        return decode_one_of_256(track + 1, length - 2, frame);
    }
    return EK_REFUSED_NO_TRACK;
}

/* The lowest four bits of v as pairs: 10 for a 0, 01 for a 1. */
static uint8_t half_of(uint8_t v)
{
    uint8_t x = (uint8_t)((v & 1) << 6 | (v & 2) << 3 | (v & 4) | (v & 8) >> 3);
    return (uint8_t)(0xAA ^ (x | x << 1));
}

int64_t plain_coil_code(const uint8_t *restrict answer, size_t length,
                        uint8_t *restrict track, size_t room)
{
    if (length < EK_ANSWER_MIN || length > EK_ANSWER_MAX) {
        return EK_REFUSED_ANSWER_LENGTH;
    }
    size_t n = EK_COIL_TRACK(length);
    if (room < n) {
        return EK_REFUSED_ROOM;
    }
    track[0] = EK_COIL_START;
    for (size_t i = 0; i < length; i++) {
        track[1 + 2 * i] = half_of(answer[i]);
        track[2 + 2 * i] = half_of(answer[i] >> 4);
    }
    track[n - 1] = EK_COIL_END;
    return (int64_t)n;
}

/* The bits of a byte's four pairs, of which each is good. */
static uint8_t bits_of(uint8_t b)
{
    return (uint8_t)((b >> 6 & 1) | (b >> 3 & 2) | (b & 4) | (b & 1) << 3);
}

/* A pair is good if its units differ: the lower bit of each is then set. */
#define GOOD 0x55

static uint8_t differing(uint8_t b)
{
    return (uint8_t)(b ^ b >> 1);
}

static bool sixteen_good(const uint8_t *bytes)
{
    uint8_t all = GOOD;
    for (int k = 0; k < 16; k++) {
        all &= differing(bytes[k]);
    }
    return all == GOOD;
}

/* The first bad bit of n bytes, or else the number of their bits. */
static size_t first_bad(const uint8_t *bytes, size_t n)
{
    size_t i = 0;
    while (n - i >= 16 && sixteen_good(bytes + i)) {
        i += 16;
    }
    while (i < n && (differing(bytes[i]) & GOOD) == GOOD) {
        i++;
    }
    size_t bit = 4 * i;
    if (i < n) {
        for (int place = 6; (differing(bytes[i]) >> place & 1) != 0;
             place -= 2) {
            bit++;
        }
    }
    return bit;
}

int64_t plain_coil_decode(const uint8_t *restrict track, size_t length,
                          uint8_t *restrict answer, size_t room)
{
    if (room < EK_ANSWER_MAX) {
        return EK_REFUSED_ROOM;
    }
    if (length < EK_COIL_TRACK(EK_ANSWER_MIN) || length > EK_COIL_TRACK_MAX ||
        length % 2 != 0 || track[0] != EK_COIL_START ||
        track[length - 1] != EK_COIL_END) {
        return EK_REFUSED_NO_ANSWER_TRACK;
    }
    size_t n = (length - 2) / 2;
    size_t bad = first_bad(track + 1, 2 * n);
    if (bad < 8 * n) {
        bool pulse = track[1 + bad / 4] >> (6 - 2 * (bad % 4)) & 1;
        return 131072 * (pulse ? EK_COIL_CLASH : EK_COIL_LOST) + (int64_t)bad;
    }
    for (size_t i = 0; i < n; i++) {
        answer[i] = (uint8_t)(bits_of(track[1 + 2 * i]) |
                              bits_of(track[2 + 2 * i]) << 4);
    }
    return (int64_t)n;
}

/* The library's card and the plain one through the same events, drawn without
 * order but the same in every run. */
#include "same.h"

#include <stdbool.h>
#include <stdio.h>
#include <stdlib.h>
#include <string.h>

#include "espenknoten.h"
#include "plain.h"

#define CARDS 400
#define EVENTS 200
#define MEMORY_MAX (40 * 32)
#define ROOM_MAX 1500

struct tag {
    uint8_t record[EK_CARD_RECORD], memory[MEMORY_MAX], locks[40];
    uint8_t answer[ROOM_MAX];
};

static struct tag ours, plain;
static size_t blocks, size, room;
static uint32_t seed = 15693;

static unsigned draw(unsigned below)
{
    seed ^= seed << 13;
    seed ^= seed >> 17;
    seed ^= seed << 5;
    return (seed >> 8) % below;
}

static void draw_bytes(uint8_t *bytes, size_t length)
{
    for (size_t i = 0; i < length; i++) {
        bytes[i] = (uint8_t)draw(256);
    }
}

static void new_tag(void)
{
    blocks = 1 + draw(40);
    size = 1 + draw(32);
    room = EK_CARD_ROOM(blocks, size);
    draw_bytes(ours.record, sizeof ours.record);
    draw_bytes(ours.memory, sizeof ours.memory);
    memset(ours.record + EK_CARD_BLOCKS, 0, 8);
    ours.record[EK_CARD_BLOCKS] = (uint8_t)blocks;
    ours.record[EK_CARD_SIZE] = (uint8_t)size;
    memset(ours.record + EK_CARD_AFI_LOCKED, 0, 2);
    memset(ours.record + EK_CARD_MODE, 0, 5);
    for (size_t i = 0; i < sizeof ours.locks; i++) {
        ours.locks[i] = draw(4) == 0;
    }
    memset(ours.answer, 0xA5, sizeof ours.answer);
    plain = ours;
}

/* The card's AFI, 00, the card's with a low digit 0, its own with one digit
 * changed, or any: by chance alone few cards would be called. */
static uint8_t draw_family(void)
{
    uint8_t afi = ours.record[EK_CARD_AFI];
    unsigned change = 1 + draw(15);
    switch (draw(5)) {
    case 0:
        return afi;
    case 1:
        return 0;
    case 2:
        return afi & 0xF0;
    case 3:
        return (uint8_t)(afi ^ (draw(2) ? change : change << 4));
    default:
        return (uint8_t)draw(256);
    }
}

/* A body of the right length for the most part. */
static size_t draw_frame(uint8_t *frame)
{
    static const uint8_t bodies[] = {1, 0, 1, 2, 0, 0, 0, 1, 0, 1, 0, 0, 2};
    size_t n = 2, body;
    frame[0] = (uint8_t)(draw(4) | (draw(3) == 0 ? 0x40 : 0));
    if (draw(3) == 0) {
        frame[0] = (uint8_t)(4 | (draw(2) << 4) | (draw(2) << 5));
        frame[1] = 0x01;
        if (frame[0] & 0x10) {
            frame[n++] = draw_family();
        }
        frame[n] = (uint8_t)(draw(3) == 0 ? 0 : draw(66));
        body = (frame[n++] + 7u) / 8;
        memcpy(frame + n, ours.record, body < 8 ? body : 8);
        if (frame[n - 1] % 8 != 0 && draw(2)) {
            frame[n + body - 1] &= (uint8_t)((1 << frame[n - 1] % 8) - 1);
        }
    } else {
        unsigned command = draw(13);
        frame[1] = (uint8_t)(draw(12) == 0 ? 0x02 : 0x20 + command);
        switch (draw(3)) {
        case 0:
            frame[0] |= 0x20;
            memcpy(frame + n, ours.record, 8);
            frame[n] ^= (uint8_t)(draw(4) == 0);
            n += 8;
            break;
        case 1:
            frame[0] |= 0x10;
            break;
        }
        body = command == 1 ? 1 + size : bodies[command];
        body = frame[1] == 0x02 ? 0 : body;
        draw_bytes(frame + n, body);
        frame[n] = (uint8_t)draw((unsigned)blocks + 1);
    }
    n += body;
    n += draw(20) == 0;
    frame[0] |= (uint8_t)(draw(40) == 0 ? 0x88 : 0);
    n = (size_t)ek_seal(frame, 128, n);
    frame[draw((unsigned)n)] ^= (uint8_t)(draw(20) == 0);
    return n;
}

static void must(bool holds, const char *what)
{
    if (!holds) {
        fprintf(stderr, "bench: ours and plain differ: %s\n", what);
        exit(1);
    }
}

static void event(void)
{
    uint8_t frame[128] = {0};
    int64_t a, b;
    size_t record = sizeof ours.record - (draw(50) == 0);
    size_t memory = blocks * size - (draw(50) == 0);
    size_t locks = blocks;
    size_t answer = room - (draw(50) == 0);
    unsigned kind = draw(8);
    if (kind == 0 && draw(4) == 0) {
        a = ek_card_power_off(ours.record, record, ours.memory, memory,
                              ours.locks, locks, ours.answer, answer);
        b = plain_card_power_off(plain.record, record, plain.memory, memory,
                                 plain.locks, locks, plain.answer, answer);
    } else if (kind < 4) {
        a = ek_card_mark(ours.record, record, ours.memory, memory, ours.locks,
                         locks, ours.answer, answer);
        b = plain_card_mark(plain.record, record, plain.memory, memory,
                            plain.locks, locks, plain.answer, answer);
    } else {
        size_t n = draw_frame(frame);
        a = ek_card_frame(ours.record, record, frame, n, ours.memory, memory,
                          ours.locks, locks, ours.answer, answer);
        b = plain_card_frame(plain.record, record, frame, n, plain.memory,
                             memory, plain.locks, locks, plain.answer, answer);
    }
    must(a == b, "card's number");
    must(memcmp(&ours, &plain, sizeof ours) == 0, "card's bytes");
}

void must_play_same(void)
{
    for (int i = 0; i < CARDS; i++) {
        new_tag();
        for (int n = 0; n < EVENTS; n++) {
            event();
        }
    }
}

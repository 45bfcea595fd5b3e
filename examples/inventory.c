/*
 * An inventory request on its way to the tags: built, sealed, coded as a pulse
 * track in both codings and read back. Then what the calls refuse.
 */
#include <inttypes.h>
#include <stdio.h>
#include <stdlib.h>
#include <string.h>

#include "espenknoten.h"

/* Stands in every room before a call, so that a stray write is seen. */
#define FILL 0xA5

/* The bytes of the track that one byte of a frame takes in 1 of 256. */
#define UNIT 64

static uint8_t track[EK_TRACK_MAX];

static void must(bool holds, const char *what)
{
    if (!holds) {
        fprintf(stderr, "inventory: %s\n", what);
        exit(1);
    }
}

/* Whether every byte from start to end still is as it was filled. */
static bool untouched(const uint8_t *room, size_t start, size_t end)
{
    for (size_t i = start; i < end; i++) {
        if (room[i] != FILL) {
            return false;
        }
    }
    return true;
}

static void print_bytes(const char *label, const uint8_t *bytes, size_t length)
{
    printf("%-9s", label);
    for (size_t i = 0; i < length; i++) {
        printf(" %02X", bytes[i]);
    }
    printf("\n");
}

/* A track in 1 of 256 is nearly all 00: only the other bytes are printed, each
 * with its place in its unit before it. */
static void print_sparse(const char *label, const uint8_t *bytes, size_t length)
{
    printf("%-9s %02X", label, bytes[0]);
    for (size_t i = 1; i + 1 < length; i++) {
        if (bytes[i] != 0) {
            printf(" %02X:%02X", (unsigned)((i - 1) % UNIT), bytes[i]);
        }
    }
    printf(" %02X\n", bytes[length - 1]);
}

/* Codes the frame into track and returns the track's length. */
static size_t code(const uint8_t *frame, size_t length, uint8_t coding)
{
    memset(track, FILL, sizeof track);
    int64_t coded = ek_code(frame, length, coding, track, sizeof track);
    must(coded >= 0, "the coder refused a good frame");
    must((size_t)coded == (coding == EK_ONE_OF_4 ? EK_TRACK_ONE_OF_4(length)
                                                 : EK_TRACK_ONE_OF_256(length)),
         "the track has another length");
    must(untouched(track, (size_t)coded, sizeof track),
         "the coder wrote past the track");
    return (size_t)coded;
}

/* Reads track and checks that the frame and its coding come back. */
static void read_back(size_t coded, uint8_t coding, const uint8_t *frame,
                      size_t length)
{
    uint8_t back[EK_FRAME_MAX];
    memset(back, FILL, sizeof back);
    int64_t decoded = ek_decode(track, coded, back, sizeof back);
    must(decoded >= 0, "the decoder refused a good track");
    must(EK_DECODED_KIND(decoded) == coding, "another coding came back");
    must(EK_DECODED_LENGTH(decoded) == length, "another length came back");
    must(memcmp(back, frame, length) == 0, "other bytes came back");
    must(untouched(back, length, sizeof back),
         "the decoder wrote past the frame");
    must(ek_is_sound(back, length), "the frame came back unsound");
    print_bytes("back", back, length);
}

static void slot_mark(void)
{
    const uint8_t mark[] = {EK_TRACK_SLOT_MARK};
    uint8_t back[EK_FRAME_MAX];
    memset(back, FILL, sizeof back);
    int64_t decoded = ek_decode(mark, sizeof mark, back, sizeof back);
    must(decoded >= 0, "the decoder refused a slot mark");
    must(EK_DECODED_KIND(decoded) == EK_SLOT_MARK, "20 is no slot mark");
    must(EK_DECODED_LENGTH(decoded) == 0, "a slot mark has a length");
    must(untouched(back, 0, sizeof back), "a slot mark wrote a byte");
    printf("20 alone is a slot mark\n");
}

static void short_room(const uint8_t *frame, size_t length)
{
    size_t room = EK_TRACK_ONE_OF_4(length) - 1;
    memset(track, FILL, sizeof track);
    int64_t answer = ek_code(frame, length, EK_ONE_OF_4, track, room);
    must(answer == EK_REFUSED_ROOM, "a short room was not refused");
    must(untouched(track, 0, sizeof track), "a refused coder wrote a byte");
    printf("room of %u bytes: EK_REFUSED_ROOM (%" PRId64 "), no byte changed\n",
           (unsigned)room, answer);
}

static void damaged_track(const uint8_t *frame, size_t length)
{
    uint8_t back[EK_FRAME_MAX];
    size_t coded = code(frame, length, EK_ONE_OF_4);
    track[coded - 2] = 0; /* the last pause before the end was not heard */
    memset(back, FILL, sizeof back);
    int64_t answer = ek_decode(track, coded, back, sizeof back);
    must(answer == EK_REFUSED_NO_TRACK, "a damaged track was not refused");
    must(untouched(back, 0, sizeof back), "a refused decoder wrote a byte");
    printf("a pause lost: EK_REFUSED_NO_TRACK (%" PRId64
           "), no byte changed\n",
           answer);
}

int main(void)
{
    /* Sixteen slots, no family, no mask; 0x02 asks for the high data rate. */
    uint8_t frame[3 + 2] = {0x02 | EK_FLAG_INVENTORY, EK_COMMAND_INVENTORY, 0};
    print_bytes("request", frame, 3);

    int64_t sealed = ek_seal(frame, sizeof frame, 3);
    must(sealed == 5, "the request was not sealed");
    size_t length = (size_t)sealed;
    must(ek_is_sound(frame, length), "the sealed request is unsound");
    print_bytes("frame", frame, length);

    size_t coded = code(frame, length, EK_ONE_OF_4);
    print_bytes("1 of 4", track, coded);
    read_back(coded, EK_ONE_OF_4, frame, length);

    coded = code(frame, length, EK_ONE_OF_256);
    print_sparse("1 of 256", track, coded);
    read_back(coded, EK_ONE_OF_256, frame, length);

    slot_mark();
    short_room(frame, length);
    damaged_track(frame, length);

    must(fflush(stdout) == 0, "standard output can't be written");
    return 0;
}

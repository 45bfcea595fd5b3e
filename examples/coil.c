/*
 * Replies straight from the coil: tags are played here, what each answers is
 * coded as a track, and the tracks lie over each other. First what is read of
 * such tracks, also damaged ones; then whole walks. Tags alike in UID and DSFID
 * are found as one; twins are one UID with different DSFIDs.
 */
#include <inttypes.h>
#include <stdio.h>
#include <stdlib.h>
#include <string.h>

#include "espenknoten.h"

/* No field here has more tags. */
#define TAGS 4

/* Stands in every room before a call, so that a stray write is seen. */
#define FILL 0xA5

/* What a tag answers to an inventory with. */
struct identity {
    uint64_t uid;
    uint8_t dsfid;
};

/* Tags of one block of one byte: an inventory asks for no more. */
static struct {
    uint8_t record[EK_CARD_RECORD];
    uint8_t memory[1], locks[1];
} tags[TAGS];

static struct ek_walk walk;
static uint64_t list[EK_LIST_PLACES];

/* What the coil heard in a slot, and room for any answer that it may be. */
static uint8_t coil[EK_COIL_TRACK(EK_INVENTORY_ANSWER)];
static uint8_t answer[EK_ANSWER_MAX];

static void must(bool holds, const char *what)
{
    if (!holds) {
        fprintf(stderr, "coil: %s\n", what);
        exit(1);
    }
}

static void print_bytes(const char *label, const uint8_t *bytes, size_t length)
{
    printf("%-7s", label);
    for (size_t i = 0; i < length; i++) {
        printf(" %02X", bytes[i]);
    }
    printf("\n");
}

/* The track of an answer to an inventory joins what is heard. */
static void lay_over(const uint8_t *said)
{
    uint8_t track[sizeof coil];
    int64_t coded = ek_coil_code(said, EK_INVENTORY_ANSWER, track,
                                 sizeof track);
    must(coded == (int64_t)sizeof track, "an answer was not coded");
    for (size_t i = 0; i < sizeof coil; i++) {
        coil[i] |= track[i];
    }
}

/* A request, or a slot mark, reaches the tags. Returns how many answer. */
static unsigned send(size_t count, const uint8_t *request, int64_t length)
{
    uint8_t said[EK_CARD_ROOM(1, 1)];
    unsigned answering = 0;
    memset(coil, 0, sizeof coil);
    for (size_t i = 0; i < count; i++) {
        int64_t n =
            length == EK_SEND_MARK
                ? ek_card_mark(tags[i].record, EK_CARD_RECORD, tags[i].memory,
                               1, tags[i].locks, 1, said, sizeof said)
                : ek_card_frame(tags[i].record, EK_CARD_RECORD, request,
                                (size_t)length, tags[i].memory, 1,
                                tags[i].locks, 1, said, sizeof said);
        must(n == 0 || n == EK_INVENTORY_ANSWER, "a tag says something else");
        if (n > 0) {
            lay_over(said);
            answering++;
        }
    }
    return answering;
}

/* What the coil heard is told to the walk. */
static int64_t hear(bool subcarrier)
{
    if (!subcarrier) {
        return ek_walk_hear_silence(&walk, list, EK_LIST_PLACES);
    }
    int64_t r = ek_coil_decode(coil, sizeof coil, answer, sizeof answer);
    must(r != EK_REFUSED_ROOM, "room for an answer is short");
    if (EK_COIL_KIND(r) == EK_COIL_ANSWER) {
        return ek_walk_hear_bytes(&walk, answer, EK_COIL_NUMBER(r), list,
                                  EK_LIST_PLACES);
    }
    /* a clash, lost, or no track at all: it can't be read */
    return ek_walk_hear_clash(&walk, list, EK_LIST_PLACES);
}

/* A whole walk over a field of tags. If it is disturbed, the first track that
 * is heard loses four pulses. */
static void inventory(const char *name, const struct identity *field,
                      size_t count, bool disturbed)
{
    uint8_t request[EK_REQUEST_MAX];
    int64_t n;
    for (size_t i = 0; i < count; i++) {
        ek_card_new(tags[i].record, field[i].uid, 1, 1);
        tags[i].record[EK_CARD_DSFID] = field[i].dsfid;
    }
    ek_walk_start(&walk, EK_WALK_NO_FAMILY);
    while ((n = ek_walk_ask(&walk, request, sizeof request)) > 0) {
        unsigned answering = send(count, request, n);
        if (answering > 0 && disturbed) {
            coil[6] = 0;
            disturbed = false;
        }
        must(hear(answering > 0) == 0, "a slot was refused");
    }
    must(n == EK_SEND_NOTHING, "the walk was refused");
    printf("%s: %s, rounds %u\n", name,
           walk.ending == EK_WALK_COMPLETE ? "complete"
           : walk.ending == EK_WALK_TWINS  ? "twins"
                                           : "full or overrun",
           (unsigned)walk.rounds);
    for (unsigned i = 0; i < walk.count; i++) {
        printf("%016" PRIX64 "\n", list[i]);
    }
}

/* The answer itself, with its check. */
static void answer_of(struct identity tag, uint8_t *said)
{
    said[EK_INVENTORY_FLAGS] = EK_ANSWER_SUCCESS;
    said[EK_INVENTORY_DSFID] = tag.dsfid;
    ek_put_number(said + EK_INVENTORY_UID, 8, tag.uid);
    must(ek_seal(said, EK_INVENTORY_ANSWER, EK_INVENTORY_CHECK) ==
             EK_INVENTORY_ANSWER,
         "not sealed");
}

/* What the decoder says of the first bytes of what was heard. */
static void print_decoded(const char *name, size_t length)
{
    static const char *const words[] = {
        [EK_COIL_ANSWER] = "an answer, bytes",
        [EK_COIL_CLASH] = "a clash, bit",
        [EK_COIL_LOST] = "lost, bit",
    };
    memset(answer, FILL, sizeof answer);
    int64_t r = ek_coil_decode(coil, length, answer, sizeof answer);
    if (r < 0) {
        printf("%s: refused (%" PRId64 ")\n", name, r);
    } else {
        printf("%s: %s %u\n", name, words[EK_COIL_KIND(r)],
               (unsigned)EK_COIL_NUMBER(r));
    }
    size_t written = EK_COIL_KIND(r) == EK_COIL_ANSWER ? EK_COIL_NUMBER(r) : 0;
    for (size_t i = written; i < sizeof answer; i++) {
        must(answer[i] == FILL, "a byte past the answer was written");
    }
}

static void tracks(struct identity one, struct identity other)
{
    uint8_t said[EK_INVENTORY_ANSWER];
    memset(coil, 0, sizeof coil);
    answer_of(one, said);
    lay_over(said);
    print_bytes("answer", said, sizeof said);
    print_bytes("track", coil, sizeof coil);
    print_decoded("alone", sizeof coil);
    lay_over(said);
    print_decoded("twice", sizeof coil);
    must(memcmp(answer, said, sizeof said) == 0, "another answer came back");
    print_decoded("cut short", sizeof coil - 1);
    coil[2] = 0;
    print_decoded("four bits lost", sizeof coil);
    memset(coil, 0, sizeof coil);
    lay_over(said);
    answer_of(other, said);
    lay_over(said);
    print_decoded("with another DSFID", sizeof coil);
}

int main(void)
{
    const uint64_t uid = UINT64_C(0xE004010000000011);
    const struct identity alike[TAGS] = {
        {uid, 0xD5}, {uid, 0xD5}, {uid + 0x10, 0xD5}, {uid + 0x10, 0xD5}};
    const struct identity twins[2] = {{uid, 0xD5}, {uid, 0xD4}};

    tracks(twins[0], twins[1]);
    inventory("no tag", NULL, 0, false);
    inventory("two UIDs", alike + 1, 2, false);
    inventory("two of each", alike, TAGS, false);
    inventory("one UID, two DSFIDs", twins, 2, false);
    inventory("one tag, disturbed", twins, 1, true);
    must(fflush(stdout) == 0, "standard output can't be written");
    return 0;
}

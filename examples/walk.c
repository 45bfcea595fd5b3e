/*
 * Whole walks over fields of cards that are played here: what the walk asks
 * for is sent to them, and what they answer is heard. Then what is refused.
 */
#include <inttypes.h>
#include <stdio.h>
#include <stdlib.h>
#include <string.h>

#include "espenknoten.h"

#define SLOTS 16

/* Past the list stands a place that no call may touch. */
#define FENCE UINT64_C(0xA5A5A5A5A5A5A5A5)

static struct ek_walk walk;
static uint64_t list[EK_LIST_PLACES + 1];

static void must(bool holds, const char *what)
{
    if (!holds) {
        fprintf(stderr, "walk: %s\n", what);
        exit(1);
    }
}

/* The low bits of a UID, up to 52 of them. */
static uint64_t low(uint64_t uid, unsigned bits)
{
    return uid & ((UINT64_C(1) << bits) - 1);
}

/* The mask of a request without a family: bits and their number. */
static uint64_t mask_of(const uint8_t *request, size_t length, unsigned *bits)
{
    must(ek_is_sound(request, length), "the request is unsound");
    must(request[0] == (0x02 | EK_FLAG_INVENTORY) &&
             request[1] == EK_COMMAND_INVENTORY,
         "no inventory request");
    *bits = request[2];
    must(*bits <= 52 && length == 5 + (*bits + 7) / 8, "a mask too long");
    return ek_get_number(request + 3, length - 5);
}

/* The field answers in a slot: silence, one card, or several at once. */
static int64_t hear(const uint64_t *cards, size_t count, unsigned bits,
                    uint64_t mask, unsigned slot)
{
    uint8_t answer[EK_INVENTORY_ANSWER] = {EK_ANSWER_SUCCESS};
    unsigned answering = 0;
    for (size_t i = 0; i < count; i++) {
        if (low(cards[i], bits) == mask && (cards[i] >> bits) % SLOTS == slot) {
            ek_put_number(answer + EK_INVENTORY_UID, 8, cards[i]);
            answering++;
        }
    }
    if (answering == 0) {
        return ek_walk_hear_silence(&walk, list, EK_LIST_PLACES);
    }
    if (answering > 1) {
        return ek_walk_hear_clash(&walk, list, EK_LIST_PLACES);
    }
    must(ek_seal(answer, sizeof answer, EK_INVENTORY_CHECK) ==
             EK_INVENTORY_ANSWER,
         "not sealed");
    return ek_walk_hear_bytes(&walk, answer, sizeof answer, list,
                              EK_LIST_PLACES);
}

static const char *ending(void)
{
    switch (walk.ending) {
    case EK_WALK_RUNNING:
        return "running";
    case EK_WALK_COMPLETE:
        return "complete";
    case EK_WALK_TWINS:
        return "twins";
    case EK_WALK_FULL:
        return "full";
    default:
        return "overrun";
    }
}

/* How often a UID is listed. */
static unsigned listed(uint64_t uid)
{
    unsigned times = 0;
    for (unsigned i = 0; i < walk.count; i++) {
        times += list[i] == uid;
    }
    return times;
}

/* A whole walk over the field. Of a long list only the length is printed. */
static void inventory(const char *name, const uint64_t *cards, size_t count)
{
    uint8_t request[EK_REQUEST_MAX];
    uint64_t mask = 0;
    unsigned bits = 0;
    unsigned slot = 0;
    for (size_t i = 0; i <= EK_LIST_PLACES; i++) {
        list[i] = FENCE;
    }
    memset(&walk, 0xFF, sizeof walk);
    ek_walk_start(&walk, EK_WALK_NO_FAMILY);
    for (;;) {
        int64_t sent = ek_walk_ask(&walk, request, sizeof request);
        must(sent >= 0, "a running walk was refused");
        if (sent == EK_SEND_NOTHING) {
            break;
        }
        if (sent == EK_SEND_MARK) {
            slot++;
        } else {
            mask = mask_of(request, (size_t)sent, &bits);
            slot = 0;
        }
        must(slot < SLOTS, "a slot too many");
        must(hear(cards, count, bits, mask, slot) == 0, "a slot was refused");
    }
    must(list[EK_LIST_PLACES] == FENCE, "a place past the list was written");
    printf("%s\nverdict %s\nrounds %u\ncards %u\n", name, ending(),
           (unsigned)walk.rounds, (unsigned)walk.count);
    for (unsigned i = 0; i < walk.count && count < SLOTS; i++) {
        printf("%016" PRIX64 "\n", list[i]);
    }
    for (size_t i = 0; walk.ending == EK_WALK_COMPLETE && i < count; i++) {
        must(listed(cards[i]) == 1, "a card is not listed, or twice");
    }
}

/* A refusal leaves record and list as they are. */
static void refused(const char *name, int64_t answer, int64_t number,
                    const struct ek_walk *before)
{
    must(answer == number, name);
    must(memcmp(&walk, before, sizeof walk) == 0, "a refusal changed the walk");
    printf("%s: %" PRId64 ", nothing changed\n", name, answer);
}

static void refusals(void)
{
    uint8_t request[EK_REQUEST_MAX];
    const uint8_t bytes[1] = {0};
    struct ek_walk before;

    before = walk; /* that of the last field, ended */
    refused("hearing after an ending",
            ek_walk_hear_clash(&walk, list, EK_LIST_PLACES), EK_REFUSED_ENDED,
            &before);

    ek_walk_start(&walk, 0x00);
    before = walk;
    refused("a list of 63",
            ek_walk_hear_bytes(&walk, bytes, sizeof bytes, list,
                               EK_LIST_PLACES - 1),
            EK_REFUSED_LIST, &before);
    refused("room of 13",
            ek_walk_ask(&walk, request, EK_REQUEST_MAX - 1), EK_REFUSED_ROOM,
            &before);

    walk.slot = SLOTS;
    before = walk;
    refused("slot 16 asked", ek_walk_ask(&walk, request, sizeof request),
            EK_REFUSED_WALK, &before);
    refused("slot 16 heard",
            ek_walk_hear_silence(&walk, list, EK_LIST_PLACES), EK_REFUSED_WALK,
            &before);
}

int main(void)
{
    const uint64_t three[] = {UINT64_C(0xE004010000000011),
                              UINT64_C(0xE004010000000021),
                              UINT64_C(0xE004010000000005)};
    const uint64_t alike[] = {UINT64_C(0xE004010000000011),
                              UINT64_C(0xE004010000000011)};
    uint64_t many[EK_LIST_PLACES + 1];
    for (unsigned i = 0; i <= EK_LIST_PLACES; i++) {
        many[i] = UINT64_C(0xE004010000000000) + 37 * i;
    }

    inventory("no card", NULL, 0);
    inventory("three cards", three, 3);
    inventory("two alike", alike, 2);
    inventory("64 different", many, EK_LIST_PLACES);
    inventory("65 different", many, EK_LIST_PLACES + 1);
    refusals();

    must(fflush(stdout) == 0, "standard output can't be written");
    return 0;
}

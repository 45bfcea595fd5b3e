/*
 * An inventory of one tag, both sides played here: what the walk asks
 * for reaches the card, and what the card says is heard.
 */
#include <espenknoten.h>
#include <inttypes.h>
#include <stdio.h>

#define BLOCKS 4
#define SIZE 4

/* The tag. */
static uint8_t record[EK_CARD_RECORD];
static uint8_t memory[BLOCKS * SIZE];
static uint8_t locks[BLOCKS];
static uint8_t answer[EK_CARD_ROOM(BLOCKS, SIZE)];

/* A slot mark, or a request of n bytes, reaches the tag. */
static int64_t say(const uint8_t *request, int64_t n)
{
    if (n == EK_SEND_MARK) {
        return ek_card_mark(record, sizeof record, memory, sizeof memory,
                            locks, sizeof locks, answer, sizeof answer);
    }
    return ek_card_frame(record, sizeof record, request, (size_t)n,
                         memory, sizeof memory, locks, sizeof locks,
                         answer, sizeof answer);
}

/* What the tag said, silence or n bytes, reaches the walk. */
static int64_t hear(struct ek_walk *walk, uint64_t *list, int64_t n)
{
    if (n < 0) {
        return n;
    }
    if (n == 0) {
        return ek_walk_hear_silence(walk, list, EK_LIST_PLACES);
    }
    return ek_walk_hear_bytes(walk, answer, (size_t)n, list,
                              EK_LIST_PLACES);
}

int main(void)
{
    struct ek_walk walk;
    uint64_t list[EK_LIST_PLACES];
    uint8_t request[EK_REQUEST_MAX];
    int64_t n;

    if (ek_version() != EK_VERSION) {
        printf("the library is not the header's\n");
        return 1;
    }
    ek_card_new(record, UINT64_C(0xE004010000000021), BLOCKS, SIZE);
    ek_walk_start(&walk, EK_WALK_NO_FAMILY);
    while ((n = ek_walk_ask(&walk, request, sizeof request)) > 0) {
        n = hear(&walk, list, say(request, n));
        if (n < 0) {
            break;
        }
    }
    if (n < 0) {
        printf("refused with number %d\n", (int)-n);
        return 1;
    }
    printf("ending %d, rounds %d\n", walk.ending, walk.rounds);
    for (int i = 0; i < walk.count; i++) {
        printf("%016" PRIX64 "\n", list[i]);
    }
    return 0;
}

/*
 * What a rack shows of its tools: the tags in it are walked, and each UID that
 * is listed is asked for two blocks of 4 bytes, block 2 with the burr's length
 * in micrometres and block 3 with its wear in minutes of work. Then a wear
 * figure is written, and a block is locked. The tags are played here.
 */
#include <inttypes.h>
#include <stdio.h>
#include <stdlib.h>
#include <string.h>

#include "espenknoten.h"

#define SIZE 4
#define LENGTH 2
#define WEAR 3

/* No tag here has more blocks, or larger ones. */
#define BLOCKS 8
#define LARGEST 8

/* Stands in the block's room before an answer is read. */
#define FILL 0xA5

struct tag {
    uint8_t record[EK_CARD_RECORD];
    uint8_t memory[BLOCKS * LARGEST];
    uint8_t locks[BLOCKS];
    bool away;      /* not in the rack any more */
    uint8_t damage; /* bits of its next answer that turn on the way */
};

static const struct {
    uint64_t uid;
    uint32_t blocks, size;
    uint32_t length, wear;
} tools[] = {
    {UINT64_C(0xE004010000000005), 8, 4, 24500, 37},
    {UINT64_C(0xE004010000000011), 8, 4, 31250, 412},
    {UINT64_C(0xE004010000000021), 8, 4, 18000, 90},
    {UINT64_C(0xE00401000000002E), 4, 8, 52000, 5}, /* larger blocks */
    {UINT64_C(0xE0040100000000A3), 3, 4, 27750, 0}, /* no block 3 */
    {UINT64_C(0xE0040100000000B7), 8, 4, 19900, 256},
};
#define TAGS (sizeof tools / sizeof *tools)

static struct tag tags[TAGS];

/* What the reader hears, and the block that it reads of it. */
static uint8_t heard[EK_CARD_ROOM(BLOCKS, LARGEST)];
static size_t heard_length;
static uint8_t block[LARGEST];

static void must(bool holds, const char *what)
{
    if (!holds) {
        fprintf(stderr, "tools: %s\n", what);
        exit(1);
    }
}

static void new_tags(void)
{
    for (size_t i = 0; i < TAGS; i++) {
        uint32_t size = tools[i].size;
        ek_card_new(tags[i].record, tools[i].uid, tools[i].blocks, size);
        ek_put_number(tags[i].memory + LENGTH * size, 4, tools[i].length);
        ek_put_number(tags[i].memory + WEAR * size, 4, tools[i].wear);
    }
}

/* A frame, or a slot mark, reaches the tags. Returns how many answer; where one
 * does, its answer is heard. */
static unsigned send(const uint8_t *frame, int64_t length)
{
    uint8_t answer[sizeof heard];
    unsigned answering = 0;
    for (struct tag *tag = tags; tag < tags + TAGS; tag++) {
        size_t blocks = ek_card_blocks(tag->record);
        size_t memory = blocks * ek_card_size(tag->record);
        int64_t said = 0;
        if (!tag->away && length == EK_SEND_MARK) {
            said = ek_card_mark(tag->record, EK_CARD_RECORD, tag->memory,
                                memory, tag->locks, blocks, answer,
                                sizeof answer);
        } else if (!tag->away) {
            said = ek_card_frame(tag->record, EK_CARD_RECORD, frame,
                                 (size_t)length, tag->memory, memory,
                                 tag->locks, blocks, answer, sizeof answer);
        }
        must(said >= 0, "a tag's buffers were refused");
        if (said > 0) {
            answering++;
            heard_length = (size_t)said;
            memcpy(heard, answer, heard_length);
            heard[1] ^= tag->damage;
            tag->damage = 0;
        }
    }
    return answering;
}

/* Walks the rack. Returns how many UIDs stand in the list. */
static unsigned walk_rack(uint64_t *list)
{
    struct ek_walk walk;
    uint8_t request[EK_REQUEST_MAX];
    int64_t n;
    ek_walk_start(&walk, EK_WALK_NO_FAMILY);
    while ((n = ek_walk_ask(&walk, request, sizeof request)) > 0) {
        unsigned answering = send(request, n);
        if (answering == 0) {
            n = ek_walk_hear_silence(&walk, list, EK_LIST_PLACES);
        } else if (answering == 1) {
            n = ek_walk_hear_bytes(&walk, heard, heard_length, list,
                                   EK_LIST_PLACES);
        } else {
            n = ek_walk_hear_clash(&walk, list, EK_LIST_PLACES);
        }
        must(n == 0, "a slot was refused");
    }
    must(n == 0 && walk.ending == EK_WALK_COMPLETE, "the walk is not complete");
    return walk.count;
}

/* Makes a request to one tag, sends it and reads the answer, a block's bytes
 * into block. Data are those of a write. Returns false if nothing is heard. */
static bool ask(struct ek_request request, const uint8_t *data, size_t length,
                struct ek_reading *got)
{
    uint8_t frame[EK_MADE_MAX];
    int64_t n = ek_make(request, data, length, frame, sizeof frame);
    must(n > 0, "the request was not made");
    if (send(frame, n) == 0) {
        return false;
    }
    memset(block, FILL, sizeof block);
    *got = ek_read(request, heard, heard_length, block, sizeof block, NULL, 0);
    must(got->answer >= 0 || got->answer == EK_REFUSED_ANSWER,
         "the reading was refused");
    must(EK_READ_KIND(got->answer) == EK_READ_BLOCKS || block[0] == FILL,
         "no block was read, and a byte changed");
    return true;
}

/* Asks, and says in a word what came of it: a block's figure, or done, or why
 * there is none. */
static const char *word(struct ek_request request, const uint8_t *data,
                        size_t length)
{
    static char text[24];
    struct ek_reading got;
    if (!ask(request, data, length, &got)) {
        return "no answer";
    }
    if (got.answer < 0) {
        return "not read";
    }
    switch (EK_READ_KIND(got.answer)) {
    case EK_READ_BLOCKS:
        sprintf(text, "%" PRIu32, (uint32_t)ek_get_number(block, 4));
        return text;
    case EK_READ_ERROR:
        sprintf(text, "error %02X", (unsigned)EK_READ_VALUE(got.answer));
        return text;
    default:
        return "done";
    }
}

/* A request to one tag, for one of its blocks. */
static struct ek_request to(uint64_t uid, uint8_t command, uint8_t first)
{
    struct ek_request request = {0};
    request.uid = uid;
    request.mode = EK_TO_UID;
    request.command = command;
    request.size = SIZE;
    request.first = first;
    return request;
}

static void table(const uint64_t *list, unsigned count)
{
    printf("UID               length um   wear min\n");
    for (unsigned i = 0; i < count; i++) {
        struct ek_request request =
            to(list[i], EK_COMMAND_READ_SINGLE_BLOCK, LENGTH);
        printf("%016" PRIX64 " %10s", list[i], word(request, NULL, 0));
        request.first = WEAR;
        printf(" %10s\n", word(request, NULL, 0));
    }
}

/* A tag that is not read may have blocks of another size: it says which. */
static void other_size(uint64_t uid)
{
    struct ek_request request = to(uid, EK_COMMAND_GET_SYSTEM_INFORMATION, 0);
    struct ek_reading got;
    must(ask(request, NULL, 0, &got), "no information was heard");
    must(got.answer >= 0 && EK_READ_KIND(got.answer) == EK_READ_INFORMATION,
         "no information was read");
    printf("%016" PRIX64 ": %u blocks of %u bytes", uid,
           (unsigned)got.information.blocks, (unsigned)got.information.size);
    request = to(uid, EK_COMMAND_READ_SINGLE_BLOCK, LENGTH);
    request.size = got.information.size;
    printf(", length %s\n", word(request, NULL, 0));
}

/* A figure written and read back; then a block that is locked. */
static void write_wear(uint64_t uid, uint32_t wear)
{
    uint8_t figure[SIZE];
    struct ek_request write = to(uid, EK_COMMAND_WRITE_SINGLE_BLOCK, WEAR);
    ek_put_number(figure, SIZE, wear);
    printf("%016" PRIX64 ": wear written, %s", uid, word(write, figure, SIZE));
    printf("; read, %s\n",
           word(to(uid, EK_COMMAND_READ_SINGLE_BLOCK, WEAR), NULL, 0));
    printf("%016" PRIX64 ": length locked, %s", uid,
           word(to(uid, EK_COMMAND_LOCK_BLOCK, LENGTH), NULL, 0));
    write.first = LENGTH;
    printf("; written, %s\n", word(write, figure, SIZE));
}

int main(void)
{
    uint64_t list[EK_LIST_PLACES];
    new_tags();
    unsigned count = walk_rack(list);
    must(count == TAGS, "a tag was not found");
    /* After the walk: an answer is damaged once, a tag is lifted, and one is
     * Quiet, which answers to its UID all the same. */
    tags[1].damage = 0x10;
    tags[2].away = true;
    tags[5].record[EK_CARD_MODE] = EK_MODE_QUIET;
    table(list, count);
    other_size(tools[3].uid);
    write_wear(tools[0].uid, 38);
    must(fflush(stdout) == 0, "standard output can't be written");
    return 0;
}

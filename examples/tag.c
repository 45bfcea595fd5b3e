/*
 * A tag played from C: an inventory round, families asked for, a block read, a
 * block written with Option, whose answer waits for a slot mark, and what the
 * calls refuse.
 */
#include <inttypes.h>
#include <stdio.h>
#include <stdlib.h>
#include <string.h>

#include "espenknoten.h"

#define UID UINT64_C(0xE004010000000005)
#define BLOCKS 32
#define SIZE 4
#define ROOM EK_CARD_ROOM(BLOCKS, SIZE)

/* Stands in the answer's room before a call, so that a stray write is seen. */
#define FILL 0xA5

/* The radio's part of the flags: the answer is wanted at the high data rate. */
#define HIGH_RATE 0x02

/* The tag: these bytes are all that there is of it between two calls. */
static uint8_t record[EK_CARD_RECORD];
static uint8_t memory[BLOCKS * SIZE];
static uint8_t locks[BLOCKS];

static uint8_t answer[ROOM];

static void must(bool holds, const char *what)
{
    if (!holds) {
        fprintf(stderr, "tag: %s\n", what);
        exit(1);
    }
}

static void print_bytes(const char *label, const uint8_t *bytes, size_t length)
{
    printf("%-8s", label);
    for (size_t i = 0; i < length; i++) {
        printf(" %02X", bytes[i]);
    }
    printf("\n");
}

/* What the tag said, and that no byte past it was written. */
static void print_answer(int64_t said)
{
    must(said >= 0, "a good call was refused");
    for (size_t i = (size_t)said; i < sizeof answer; i++) {
        must(answer[i] == FILL, "a byte past the answer was written");
    }
    if (said == 0) {
        printf("         silence\n");
    } else {
        size_t length = (size_t)said - 2;
        must(ek_check(answer, length) == ek_get_number(answer + length, 2),
             "the answer has a wrong check");
        print_bytes("", answer, (size_t)said);
    }
}

/* Sends a message of so many bytes with its check behind it. */
static void send(const char *label, const uint8_t *message, size_t length)
{
    uint8_t frame[EK_FRAME_MAX];
    memcpy(frame, message, length);
    int64_t sealed = ek_seal(frame, sizeof frame, length);
    must(sealed > 0, "the message was not sealed");
    print_bytes(label, frame, (size_t)sealed);
    memset(answer, FILL, sizeof answer);
    print_answer(ek_card_frame(record, sizeof record, frame, (size_t)sealed,
                               memory, sizeof memory, locks, sizeof locks,
                               answer, sizeof answer));
}

static void mark(void)
{
    printf("mark\n");
    memset(answer, FILL, sizeof answer);
    print_answer(ek_card_mark(record, sizeof record, memory, sizeof memory,
                              locks, sizeof locks, answer, sizeof answer));
}

static void new_tag(void)
{
    ek_card_new(record, UID, BLOCKS, SIZE);
    record[EK_CARD_AFI] = 0x31;
    record[EK_CARD_DSFID] = 0xD5;
    for (size_t i = 0; i < sizeof memory; i++) {
        memory[i] = (uint8_t)i;
    }
    memset(locks, 0, sizeof locks);
    locks[1] = 1;
    print_bytes("record", record, sizeof record);
}

/* Sixteen slots with no mask: the tag speaks in the slot of its low digit. */
static const uint8_t request[] = {HIGH_RATE | EK_FLAG_INVENTORY,
                                  EK_COMMAND_INVENTORY, 0};

static void inventory(void)
{
    send("frame", request, sizeof request);
    for (int slot = 1; slot <= 5; slot++) {
        mark();
    }
    must(ek_card_sequence(record) && ek_card_slot(record) == 5,
         "the sequence is not in slot 5");
    must(ek_get_number(answer + EK_INVENTORY_UID, 8) == UID &&
             answer[EK_INVENTORY_DSFID] == ek_card_dsfid(record),
         "another tag answered");
}

/* One slot for a family: the tag is one of 30, as all of 31 to 3F are, and is
 * silent where 40 is asked for. */
static void families(void)
{
    const uint8_t flags = HIGH_RATE | EK_FLAG_INVENTORY | EK_FLAG_AFI |
                          EK_FLAG_ONE_SLOT;
    const uint8_t own[] = {flags, EK_COMMAND_INVENTORY, 0x30, 0};
    const uint8_t another[] = {flags, EK_COMMAND_INVENTORY, 0x40, 0};
    send("family", own, sizeof own);
    send("family", another, sizeof another);
}

static void read_and_write(void)
{
    const uint8_t option = HIGH_RATE | EK_FLAG_OPTION;
    const uint8_t read[] = {HIGH_RATE, EK_COMMAND_READ_SINGLE_BLOCK, 3};
    const uint8_t read_locked[] = {option, EK_COMMAND_READ_SINGLE_BLOCK, 1};
    const uint8_t write[] = {option, EK_COMMAND_WRITE_SINGLE_BLOCK, 3,
                             0xCA, 0xFE, 0xBA, 0xBE};
    const uint8_t write_locked[] = {option, EK_COMMAND_WRITE_SINGLE_BLOCK, 1,
                                    0, 0, 0, 0};
    send("read", read, sizeof read);
    send("read", read_locked, sizeof read_locked);
    send("write", write, sizeof write);
    must(ek_card_held(record) == EK_HELD_SUCCESS, "success is not held");
    mark();
    send("read", read, sizeof read);
    send("write", write_locked, sizeof write_locked);
    must(ek_card_held(record) == EK_ERROR_LOCKED, "the error is not held");
    mark();
}

static void power_off(void)
{
    send("frame", request, sizeof request);
    printf("off\n");
    memset(answer, FILL, sizeof answer);
    print_answer(ek_card_power_off(record, sizeof record, memory,
                                   sizeof memory, locks, sizeof locks, answer,
                                   sizeof answer));
    print_bytes("record", record, sizeof record);
}

/* Each refusal, and that it leaves the record as it was. */
static void refusals(void)
{
    uint8_t before[EK_CARD_RECORD];
    memcpy(before, record, sizeof record);
    printf("record of 39 bytes: EK_REFUSED_CARD (%" PRId64 ")\n",
           ek_card_mark(record, sizeof record - 1, memory, sizeof memory, locks,
                        sizeof locks, answer, sizeof answer));
    printf("memory a byte short: EK_REFUSED_CARD_LENGTHS (%" PRId64 ")\n",
           ek_card_mark(record, sizeof record, memory, sizeof memory - 1, locks,
                        sizeof locks, answer, sizeof answer));
    locks[0] = 2;
    printf("lock byte 2: EK_REFUSED_CARD_LOCK (%" PRId64 ")\n",
           ek_card_mark(record, sizeof record, memory, sizeof memory, locks,
                        sizeof locks, answer, sizeof answer));
    locks[0] = 0;
    printf("room a byte short: EK_REFUSED_CARD_ROOM (%" PRId64 ")\n",
           ek_card_mark(record, sizeof record, memory, sizeof memory, locks,
                        sizeof locks, answer, sizeof answer - 1));
    must(memcmp(before, record, sizeof record) == 0,
         "a refused call changed the record");
}

int main(void)
{
    new_tag();
    inventory();
    families();
    read_and_write();
    power_off();
    refusals();
    must(fflush(stdout) == 0, "standard output can't be written");
    return 0;
}

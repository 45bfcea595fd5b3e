/*
 * The form of the library's reader in plain C: the request by value, the
 * refusals in their order, head and body put and sealed; of an answer the part
 * after the flags goes to the command that owns it. The check is plain.c's, by
 * a table.
 */
#include "plain_reader.h"

#include <stdbool.h>
#include <string.h>

#include "plain.h"

/* Flags and check: the shortest answer. */
#define FRAMING 3

/* An error: flags, code and check. */
#define ERROR_LENGTH 4

/* What 2B says after the flags, its own flags first. */
#define INFORMATION 14

static bool is_request(struct ek_request request)
{
    uint8_t command = request.command;
    if (command < 0x20 || command > 0x2C || command == 0x24) {
        return false;
    }
    if (command == 0x25 && request.mode != EK_TO_UID) {
        return false;
    }
    return request.size >= 1 && request.size <= EK_CARD_SIZE_MAX;
}

static size_t put_number(uint8_t *bytes, size_t count, uint64_t number)
{
    for (size_t i = 0; i < count; i++) {
        bytes[i] = (uint8_t)(number >> (8 * i));
    }
    return count;
}

static uint64_t number_at(const uint8_t *bytes, size_t count)
{
    uint64_t number = 0;
    for (size_t i = 0; i < count; i++) {
        number |= (uint64_t)bytes[i] << (8 * i);
    }
    return number;
}

/* ---- a request */

static uint8_t flags_of(struct ek_request request)
{
    uint8_t flags = request.option != 0 ? 0x42 : 0x02;
    if (request.mode == EK_TO_UID) {
        flags |= EK_FLAG_ADDRESS;
    } else if (request.mode != EK_TO_ALL) {
        flags |= EK_FLAG_SELECT;
    }
    return flags;
}

static size_t put_body(struct ek_request request, const uint8_t *data,
                       uint8_t *body)
{
    switch (request.command) {
    case 0x20:
    case 0x22:
        body[0] = request.first;
        return 1;
    case 0x21:
        body[0] = request.first;
        memcpy(body + 1, data, request.size);
        return 1 + (size_t)request.size;
    case 0x23:
    case 0x2C:
        body[0] = request.first;
        body[1] = request.n;
        return 2;
    case 0x27:
    case 0x29:
        body[0] = request.value;
        return 1;
    default:
        return 0;
    }
}

int64_t plain_make(struct ek_request request, const uint8_t *data,
                   size_t length, uint8_t *frame, size_t room)
{
    if (!is_request(request) ||
        (request.command == 0x21 && length != request.size)) {
        return EK_REFUSED_REQUEST;
    }
    if (room < EK_MADE_MAX) {
        return EK_REFUSED_ROOM;
    }
    size_t n = 0;
    frame[n++] = flags_of(request);
    frame[n++] = request.command;
    if (request.mode == EK_TO_UID) {
        n += put_number(frame + n, 8, request.uid);
    }
    n += put_body(request, data, frame + n);
    n += put_number(frame + n, 2, plain_check(frame, n));
    return (int64_t)n;
}

/* ---- its answer */

static bool reads_blocks(struct ek_request request)
{
    return request.command == 0x20 || request.command == 0x23;
}

/* The blocks that the request asks for, and the lock byte before each. */
static size_t count_of(struct ek_request request)
{
    return request.command == 0x20 ? 1 : request.n + (size_t)1;
}

static size_t lead_of(struct ek_request request)
{
    return request.option != 0;
}

static bool has_room(struct ek_request request, size_t blocks_room,
                     size_t locks_room)
{
    size_t count = count_of(request);
    if (reads_blocks(request)) {
        return blocks_room >= count * request.size &&
               locks_room >= count * lead_of(request);
    }
    return request.command != 0x2C || locks_room >= count;
}

/* The length of a success. */
static size_t earned(struct ek_request request)
{
    switch (request.command) {
    case 0x20:
    case 0x23:
        return FRAMING + count_of(request) * (lead_of(request) + request.size);
    case 0x2B:
        return FRAMING + INFORMATION;
    case 0x2C:
        return FRAMING + count_of(request);
    default:
        return FRAMING;
    }
}

static bool is_answer(struct ek_request request, const uint8_t *answer,
                      size_t length)
{
    if (length < FRAMING ||
        plain_check(answer, length - 2) != number_at(answer + length - 2, 2)) {
        return false;
    }
    if (answer[0] == EK_ANSWER_ERROR) {
        return length == ERROR_LENGTH;
    }
    return answer[0] == EK_ANSWER_SUCCESS && length == earned(request) &&
           (request.command != 0x2B || answer[1] == EK_INFORMATION_ALL);
}

static struct ek_reading told(int kind, size_t value)
{
    struct ek_reading reading = {0};
    reading.answer = (int64_t)kind * 65536 + (int64_t)value;
    return reading;
}

static struct ek_reading refused(int number)
{
    struct ek_reading reading = {0};
    reading.answer = number;
    return reading;
}

static struct ek_reading take_blocks(const uint8_t *part, size_t lead,
                                     size_t size, size_t count,
                                     uint8_t *blocks, uint8_t *locks)
{
    for (size_t i = 0; i < count; i++) {
        if (lead != 0) {
            locks[i] = *part++;
        }
        memcpy(blocks + i * size, part, size);
        part += size;
    }
    return told(EK_READ_BLOCKS, count * size);
}

static struct ek_reading take_locks(const uint8_t *part, size_t count,
                                    uint8_t *locks)
{
    memcpy(locks, part, count);
    return told(EK_READ_LOCKS, count);
}

static struct ek_reading take_information(const uint8_t *part)
{
    struct ek_reading reading = told(EK_READ_INFORMATION, 0);
    reading.information.flags = part[0];
    reading.information.uid = number_at(part + 1, 8);
    reading.information.dsfid = part[9];
    reading.information.afi = part[10];
    reading.information.blocks = (uint16_t)(part[11] + 1);
    reading.information.size = (uint16_t)(part[12] + 1);
    reading.information.ic = part[13];
    return reading;
}

struct ek_reading plain_read(struct ek_request request, const uint8_t *answer,
                             size_t length, uint8_t *blocks,
                             size_t blocks_room, uint8_t *locks,
                             size_t locks_room)
{
    if (!is_request(request)) {
        return refused(EK_REFUSED_REQUEST);
    }
    if (!has_room(request, blocks_room, locks_room)) {
        return refused(EK_REFUSED_ROOM);
    }
    if (!is_answer(request, answer, length)) {
        return refused(EK_REFUSED_ANSWER);
    }
    if (answer[0] == EK_ANSWER_ERROR) {
        return told(EK_READ_ERROR, answer[1]);
    }
    switch (request.command) {
    case 0x20:
    case 0x23:
        return take_blocks(answer + 1, lead_of(request), request.size,
                           count_of(request), blocks, locks);
    case 0x2B:
        return take_information(answer + 1);
    case 0x2C:
        return take_locks(answer + 1, count_of(request), locks);
    default:
        return told(EK_READ_DONE, 0);
    }
}

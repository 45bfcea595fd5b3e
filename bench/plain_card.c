/*
 * The form of the library's card in plain C: the record read into a struct, the
 * four refusals, what the frame decides, memory and locks changed, the answer
 * with its check, the record put back. The check is plain.c's, by a table.
 */
#include "plain_card.h"

#include <string.h>

#include "espenknoten.h"
#include "plain.h"

enum effect { LEAVE, WRITE, LOCK };

/* What an event does besides changing the card. */
struct deed {
    enum reply reply;
    enum effect effect;
    uint8_t code;
    uint32_t first, count, place;
    bool option;
};

static const struct deed SILENT = {SILENCE, LEAVE, 0, 0, 0, 0, false};

static uint64_t number_at(const uint8_t *bytes, size_t count)
{
    uint64_t number = 0;
    for (size_t i = 0; i < count; i++) {
        number |= (uint64_t)bytes[i] << (8 * i);
    }
    return number;
}

static void put_number(uint8_t *bytes, size_t count, uint64_t number)
{
    for (size_t i = 0; i < count; i++) {
        bytes[i] = (uint8_t)(number >> (8 * i));
    }
}

static void read_card(const uint8_t *record, struct card *card)
{
    card->uid = number_at(record + EK_CARD_UID, 8);
    card->blocks = (uint32_t)number_at(record + EK_CARD_BLOCKS, 4);
    card->size = (uint32_t)number_at(record + EK_CARD_SIZE, 4);
    card->afi = record[EK_CARD_AFI];
    card->dsfid = record[EK_CARD_DSFID];
    card->afi_locked = record[EK_CARD_AFI_LOCKED] != 0;
    card->dsfid_locked = record[EK_CARD_DSFID_LOCKED] != 0;
    card->ic = record[EK_CARD_IC];
    uint8_t mode = record[EK_CARD_MODE];
    card->mode = mode == 0 ? READY : mode == 1 ? QUIET : SELECTED;
    card->running = record[EK_CARD_SEQUENCE] != 0;
    card->slot = record[EK_CARD_SLOT];
    card->mask_length = record[EK_CARD_MASK_LENGTH];
    card->held = record[EK_CARD_HELD];
    card->mask = number_at(record + EK_CARD_MASK, 8);
}

static void put_card(const struct card *card, uint8_t *record)
{
    bool running = card->running;
    put_number(record + EK_CARD_UID, 8, card->uid);
    put_number(record + EK_CARD_BLOCKS, 4, card->blocks);
    put_number(record + EK_CARD_SIZE, 4, card->size);
    record[EK_CARD_AFI] = card->afi;
    record[EK_CARD_DSFID] = card->dsfid;
    record[EK_CARD_AFI_LOCKED] = card->afi_locked;
    record[EK_CARD_DSFID_LOCKED] = card->dsfid_locked;
    record[EK_CARD_IC] = card->ic;
    record[EK_CARD_MODE] = (uint8_t)card->mode;
    record[EK_CARD_SEQUENCE] = running;
    record[EK_CARD_SLOT] = running ? card->slot : 0;
    record[EK_CARD_MASK_LENGTH] = running ? card->mask_length : 0;
    record[EK_CARD_HELD] = card->held;
    put_number(record + EK_CARD_MASK, 8, running ? card->mask : 0);
}

static bool is_accepted(const struct card *card)
{
    if (card->blocks < 1 || card->blocks > 256 || card->size < 1 ||
        card->size > 32) {
        return false;
    }
    if (card->running && (card->slot > 15 || card->mask_length > 60 ||
                          card->mask >> card->mask_length != 0)) {
        return false;
    }
    return card->held <= 2 || (card->held >= 0x10 && card->held <= 0x12);
}

/* Reads the card. Returns the number of the refusal, or 0. */
static int lent(struct card *card, const uint8_t *record, size_t record_length,
                size_t memory_length, const uint8_t *locks, size_t locks_length,
                size_t room)
{
    if (record_length != EK_CARD_RECORD) {
        return EK_REFUSED_CARD;
    }
    read_card(record, card);
    if (!is_accepted(card)) {
        return EK_REFUSED_CARD;
    }
    if (memory_length != (size_t)card->blocks * card->size ||
        locks_length != card->blocks) {
        return EK_REFUSED_CARD_LENGTHS;
    }
    for (size_t i = 0; i < locks_length; i++) {
        if (locks[i] > 1) {
            return EK_REFUSED_CARD_LOCK;
        }
    }
    if (room < 32 || room < 3 + (size_t)card->blocks * (card->size + 1)) {
        return EK_REFUSED_CARD_ROOM;
    }
    return 0;
}

static uint64_t low_bits(uint64_t number, unsigned length)
{
    return length < 64 ? number & (((uint64_t)1 << length) - 1) : number;
}

static enum reply present_if(bool fits)
{
    return fits ? PRESENT : SILENCE;
}

static bool fits_slot(const struct card *card)
{
    return low_bits(card->uid, card->mask_length) == card->mask &&
           (card->uid >> card->mask_length) % 16 == card->slot;
}

/* X0 calls the whole family of high digit X, 00 every card, any other AFI only
 * its own. */
static bool calls(uint8_t asked, uint8_t afi)
{
    return asked == 0 || asked == afi || asked == (afi & 0xF0);
}

static enum reply inventory(struct card *card, const uint8_t *frame,
                            size_t length)
{
    uint8_t flags = frame[0];
    bool one = flags & 0x20;
    size_t at = flags & 0x10 ? 3 : 2;
    uint8_t bits = at < length ? frame[at] : 0;
    size_t bytes = (bits + 7u) / 8;
    if (flags & 0x40 || card->mode == QUIET || frame[1] != 0x01 ||
        bits > (one ? 64 : 60) || length != at + 1 + bytes + 2) {
        return SILENCE;
    }
    if (flags & 0x10 && !calls(frame[2], card->afi)) {
        return SILENCE;
    }
    uint64_t mask = low_bits(number_at(frame + at + 1, bytes), bits);
    if (one) {
        return present_if(low_bits(card->uid, bits) == mask);
    }
    card->running = true;
    card->slot = 0;
    card->mask_length = bits;
    card->mask = mask;
    return present_if(fits_slot(card));
}

enum reply plain_hear_mark(struct card *card)
{
    if (card->held != 0) {
        enum reply released = card->held == 1 ? DONE : ERROR;
        card->held = 0;
        return released;
    }
    if (!card->running) {
        return SILENCE;
    }
    if (card->slot == 15) {
        card->running = false;
        return SILENCE;
    }
    card->slot++;
    return present_if(fits_slot(card));
}

static struct deed fail(struct card *card, bool hold, uint8_t code)
{
    struct deed deed = SILENT;
    if (hold) {
        card->held = code;
        return deed;
    }
    deed.reply = ERROR;
    deed.code = code;
    return deed;
}

static struct deed succeed(struct card *card, bool hold, enum effect effect,
                           uint32_t block, uint32_t place)
{
    struct deed deed = {DONE, effect, 0, block, 0, place, false};
    if (hold) {
        card->held = 1;
        deed.reply = SILENCE;
    }
    return deed;
}

static struct deed tell(struct card *card, enum reply reply, uint8_t first,
                        uint8_t more, bool option)
{
    struct deed deed = {reply, LEAVE, 0, first, more + 1u, 0, option};
    return (uint32_t)first + more < card->blocks ? deed
                                                 : fail(card, false, 0x10);
}

static size_t body_asked(uint8_t command, uint32_t size)
{
    switch (command) {
    case 0x20:
    case 0x22:
    case 0x27:
    case 0x29:
        return 1;
    case 0x21:
        return 1 + (size_t)size;
    case 0x23:
    case 0x2C:
        return 2;
    default:
        return 0;
    }
}

/* A block's write or lock, with the code of a block that is locked. */
static struct deed change(struct card *card, const uint8_t *locks, bool option,
                          uint8_t block, enum effect effect, uint32_t place,
                          uint8_t code)
{
    if (block >= card->blocks) {
        return fail(card, option, 0x10);
    }
    return locks[block] ? fail(card, option, code)
                        : succeed(card, option, effect, block, place);
}

/* The same of AFI and DSFID, which stand in the record. */
static struct deed write_byte(struct card *card, bool option, uint8_t *byte,
                              bool locked, uint8_t value)
{
    if (locked) {
        return fail(card, option, 0x12);
    }
    *byte = value;
    return succeed(card, option, LEAVE, 0, 0);
}

static struct deed lock_byte(struct card *card, bool option, bool *locked)
{
    if (*locked) {
        return fail(card, option, 0x11);
    }
    *locked = true;
    return succeed(card, option, LEAVE, 0, 0);
}

static struct deed turn_to(struct card *card, enum mode mode)
{
    card->mode = mode;
    return succeed(card, false, LEAVE, 0, 0);
}

static struct deed perform(struct card *card, const uint8_t *locks, bool option,
                           const uint8_t *body, uint32_t at, uint8_t command)
{
    uint8_t first = body[0], second = body[1];
    struct deed deed = SILENT;
    switch (command) {
    case 0x20:
        return tell(card, READ, first, 0, option);
    case 0x21:
        return change(card, locks, option, first, WRITE, at + 1, 0x12);
    case 0x22:
        return change(card, locks, option, first, LOCK, 0, 0x11);
    case 0x23:
        return tell(card, READ, first, second, option);
    case 0x25:
        return turn_to(card, SELECTED);
    case 0x26:
        return turn_to(card, READY);
    case 0x27:
        return write_byte(card, option, &card->afi, card->afi_locked, first);
    case 0x28:
        return lock_byte(card, option, &card->afi_locked);
    case 0x29:
        return write_byte(card, option, &card->dsfid, card->dsfid_locked,
                          first);
    case 0x2A:
        return lock_byte(card, option, &card->dsfid_locked);
    case 0x2B:
        deed.reply = INFORMATION;
        return deed;
    default:
        return tell(card, STATUS, first, second, false);
    }
}

static struct deed request(struct card *card, const uint8_t *locks,
                           const uint8_t *frame, size_t length)
{
    uint8_t flags = frame[0], command = frame[1];
    bool select = flags & 0x10, address = flags & 0x20, option = flags & 0x40;
    uint32_t at = address ? 10 : 2;
    if (address) {
        if (select || length < 12) {
            return SILENT;
        }
        if (number_at(frame + 2, 8) != card->uid) {
            if (command == 0x25 && card->mode == SELECTED) {
                card->mode = READY;
            }
            return SILENT;
        }
    } else if (select ? card->mode != SELECTED : card->mode == QUIET) {
        return SILENT;
    }
    size_t body = length - at - 2;
    if (command == 0x02) {
        if (address && body == 0) {
            card->mode = QUIET;
        }
        return SILENT;
    }
    if (command == 0x25 && !address) {
        return SILENT;
    }
    if (command < 0x20 || command > 0x2C || command == 0x24) {
        return fail(card, false, 0x01);
    }
    bool holds = command == 0x21 || command == 0x22 ||
                 (command >= 0x27 && command <= 0x2A);
    if (body != body_asked(command, card->size)) {
        return fail(card, option && holds, 0x02);
    }
    if (option && (command == 0x25 || command == 0x26 || command >= 0x2B)) {
        return fail(card, false, 0x03);
    }
    return perform(card, locks, option, frame + at, at, command);
}

static size_t put_present(const struct card *card, uint8_t *answer)
{
    answer[0] = 0x00;
    answer[1] = card->dsfid;
    put_number(answer + 2, 8, card->uid);
    return 10;
}

static size_t put_check(uint8_t *answer, size_t length)
{
    put_number(answer + length, 2, plain_check(answer, length));
    return length + 2;
}

/* The body of the answer; returns its length. */
static size_t put_reply(const struct card *card, const uint8_t *memory,
                        const uint8_t *locks, const struct deed *deed,
                        uint8_t *answer)
{
    size_t n = 1, size = card->size;
    if (deed->reply == SILENCE) {
        return 0;
    }
    answer[0] = deed->reply == ERROR;
    switch (deed->reply) {
    case ERROR:
        answer[n++] = deed->code;
        break;
    case PRESENT:
        n = put_present(card, answer);
        break;
    case READ:
        for (size_t i = deed->first; i < deed->first + deed->count; i++) {
            if (deed->option) {
                answer[n++] = locks[i];
            }
            for (size_t b = 0; b < size; b++) {
                answer[n++] = memory[i * size + b];
            }
        }
        break;
    case STATUS:
        for (size_t i = 0; i < deed->count; i++) {
            answer[n++] = locks[deed->first + i];
        }
        break;
    case INFORMATION:
        answer[1] = 0x0F;
        put_number(answer + 2, 8, card->uid);
        answer[10] = card->dsfid;
        answer[11] = card->afi;
        answer[12] = (uint8_t)(card->blocks - 1);
        answer[13] = (uint8_t)(card->size - 1);
        answer[14] = card->ic;
        n = 15;
        break;
    default:
        break;
    }
    return n;
}

static int64_t answered(const struct card *card, const uint8_t *memory,
                        const uint8_t *locks, const struct deed *deed,
                        uint8_t *answer)
{
    size_t n = put_reply(card, memory, locks, deed, answer);
    return n == 0 ? 0 : (int64_t)put_check(answer, n);
}

void plain_answer(const struct card *card, uint8_t *answer)
{
    put_check(answer, put_present(card, answer));
}

static bool is_sound(const uint8_t *frame, size_t length)
{
    return length >= 4 && length <= EK_FRAME_MAX &&
           plain_check(frame, length - 2) == number_at(frame + length - 2, 2);
}

/* What any frame does first. */
static void clear(struct card *card)
{
    card->running = false;
    card->held = 0;
}

/* Sound, and none of the flags that must be 0. */
static bool is_served(const uint8_t *frame, size_t length)
{
    return is_sound(frame, length) && (frame[0] & 0x88) == 0;
}

enum reply plain_hear_inventory(struct card *card, const uint8_t *frame,
                                size_t length)
{
    clear(card);
    return is_served(frame, length) && frame[0] & 0x04
               ? inventory(card, frame, length)
               : SILENCE;
}

int64_t plain_card_frame(uint8_t *record, size_t record_length,
                         const uint8_t *frame, size_t length, uint8_t *memory,
                         size_t memory_length, uint8_t *locks,
                         size_t locks_length, uint8_t *answer, size_t room)
{
    struct card card;
    int refused = lent(&card, record, record_length, memory_length, locks,
                       locks_length, room);
    if (refused != 0) {
        return refused;
    }
    struct deed deed = SILENT;
    clear(&card);
    if (is_served(frame, length)) {
        if (frame[0] & 0x04) {
            deed.reply = inventory(&card, frame, length);
        } else {
            deed = request(&card, locks, frame, length);
        }
    }
    if (deed.effect == WRITE) {
        memcpy(memory + (size_t)deed.first * card.size, frame + deed.place,
               card.size);
    } else if (deed.effect == LOCK) {
        locks[deed.first] = 1;
    }
    int64_t told = answered(&card, memory, locks, &deed, answer);
    put_card(&card, record);
    return told;
}

int64_t plain_card_mark(uint8_t *record, size_t record_length,
                        const uint8_t *memory, size_t memory_length,
                        const uint8_t *locks, size_t locks_length,
                        uint8_t *answer, size_t room)
{
    struct card card;
    int refused = lent(&card, record, record_length, memory_length, locks,
                       locks_length, room);
    if (refused != 0) {
        return refused;
    }
    struct deed deed = SILENT;
    deed.code = card.held;
    deed.reply = plain_hear_mark(&card);
    int64_t told = answered(&card, memory, locks, &deed, answer);
    put_card(&card, record);
    return told;
}

int64_t plain_card_power_off(uint8_t *record, size_t record_length,
                             const uint8_t *memory, size_t memory_length,
                             const uint8_t *locks, size_t locks_length,
                             const uint8_t *answer, size_t room)
{
    struct card card;
    (void)memory;
    (void)answer;
    int refused = lent(&card, record, record_length, memory_length, locks,
                       locks_length, room);
    if (refused != 0) {
        return refused;
    }
    card.mode = READY;
    clear(&card);
    put_card(&card, record);
    return 0;
}

/*
 * espenknoten.h: vicinity tags (ISO/IEC 15693) for the rack board's firmware.
 *
 * Every function of the archive is proved: for all arguments that keep the four
 * rules below it returns, reads and writes nothing but the buffers it is lent,
 * and gives exactly the answer described. The proofs are about the source; that
 * compiler and linker made this code of it is trusted, and TRUST.md (installed
 * in share/doc/espenknoten) says what else is. The static inline functions here
 * are plain C: tested, not proved.
 *
 * Rules for the caller, for every function:
 *   - A buffer is a pointer and then the number of places behind it: bytes, or
 *     for a list of UIDs uint64_t. All of these places are readable; those
 *     behind a pointer to non-const are writable too. A pointer may be NULL
 *     only if the number is 0. Bytes may stand anywhere; a list and a struct
 *     ek_walk are aligned as C aligns their types, to 8 bytes and to 4.
 *   - The buffers of one call do not overlap.
 *   - The caller owns every buffer. Nothing is kept after the call returns,
 *     nothing is allocated, and there is no state between calls.
 *   - Nothing else writes a lent buffer during the call: no other thread, no
 *     interrupt handler, no DMA. What reads one that the call may write can see
 *     it half done. A handler may make calls of its own with other buffers.
 *
 * A call that can't be served returns minus its number, one of EK_REFUSED_..
 * (ek_read within a struct), and has then changed no byte. A call that is
 * served leaves the bytes past its result as it found them. The size of a
 * buffer that a result goes to is called room.
 *
 * The archive links into x86-64 programs only, for processors from x86-64-v2
 * on.
 */
#ifndef ESPENKNOTEN_H
#define ESPENKNOTEN_H

#include <stdbool.h>
#include <stddef.h>
#include <stdint.h>

#ifdef __cplusplus
extern "C" {
#endif

/*
 * The version of this header; EK_VERSION is also a number for #if. ek_version
 * returns the number of the archive's own version: if it is not EK_VERSION,
 * header and archive do not belong together. Refuses nothing.
 */
#define EK_VERSION_MAJOR 3
#define EK_VERSION_MINOR 0
#define EK_VERSION_PATCH 0
#define EK_VERSION                                                             \
    (65536 * EK_VERSION_MAJOR + 256 * EK_VERSION_MINOR + EK_VERSION_PATCH)

uint32_t ek_version(void);

/*
 * Refusals: minus the numbers of the rules page. Where several hold, a call
 * gives the one that comes first in its order:
 *
 *   ek_seal          EK_REFUSED_ROOM
 *   ek_code          EK_REFUSED_FRAME_OR_CODING, EK_REFUSED_ROOM
 *   ek_decode        EK_REFUSED_ROOM, EK_REFUSED_NO_TRACK
 *   ek_card_frame, ek_card_mark, ek_card_power_off
 *                    EK_REFUSED_CARD, EK_REFUSED_CARD_LENGTHS,
 *                    EK_REFUSED_CARD_LOCK, EK_REFUSED_CARD_ROOM
 *   ek_walk_ask      EK_REFUSED_WALK, EK_REFUSED_ROOM
 *   ek_walk_hear_..  EK_REFUSED_WALK, EK_REFUSED_ENDED, EK_REFUSED_LIST
 *   ek_shared_start  EK_REFUSED_RACK, EK_REFUSED_LIST
 *   ek_shared_hear_..
 *                    EK_REFUSED_RACK, EK_REFUSED_WALK, EK_REFUSED_ENDED,
 *                    EK_REFUSED_LIST, and for its list EK_REFUSED_WALK again
 *   ek_make          EK_REFUSED_REQUEST, EK_REFUSED_ROOM
 *   ek_read          EK_REFUSED_REQUEST, EK_REFUSED_ROOM, EK_REFUSED_ANSWER
 *   ek_coil_code     EK_REFUSED_ANSWER_LENGTH, EK_REFUSED_ROOM
 *   ek_coil_decode   EK_REFUSED_ROOM, EK_REFUSED_NO_ANSWER_TRACK
 *
 * All others refuse nothing.
 */
#define EK_REFUSED_CARD (-1)            /* a card's record, see below */
#define EK_REFUSED_CARD_LENGTHS (-2)    /* memory or locks of another length */
#define EK_REFUSED_CARD_LOCK (-3)       /* a lock byte over 1 */
#define EK_REFUSED_CARD_ROOM (-4)       /* room for the answer short */
#define EK_REFUSED_LIST (-5)            /* list or marks short, or a bad mark */
#define EK_REFUSED_ENDED (-6)           /* hearing after an ending */
#define EK_REFUSED_FRAME_OR_CODING (-7) /* frame over 64 bytes, or no coding */
#define EK_REFUSED_REQUEST (-7)         /* a request that is not made */
#define EK_REFUSED_ANSWER_LENGTH (-7)   /* answer not of 3 to 8,451 bytes */
#define EK_REFUSED_ROOM (-8)            /* room short */
#define EK_REFUSED_NO_TRACK (-9)        /* not a track */
#define EK_REFUSED_WALK (-10)           /* a walk's record, or a rack's rows */
#define EK_REFUSED_ANSWER (-11)         /* not an answer to the request */
#define EK_REFUSED_NO_ANSWER_TRACK (-12) /* wrong start, end or length */
#define EK_REFUSED_RACK (-13)           /* a rack other than 0 and 1 */

/* The longest frame, in bytes. */
#define EK_FRAME_MAX 64

/* The pulse codings: a pause in one of 4 or in one of 256 places. */
#define EK_ONE_OF_4 0
#define EK_ONE_OF_256 1

/* What EK_DECODED_KIND gives for a track that is a slot mark. */
#define EK_SLOT_MARK 2

/* A slot mark on the air: a track of this byte alone, which ends all tracks. */
#define EK_TRACK_SLOT_MARK 0x20

/* The length of the track of a frame of n bytes, and the longest tracks. */
#define EK_TRACK_ONE_OF_4(n) (2 + 4 * (n))
#define EK_TRACK_ONE_OF_256(n) (2 + 64 * (n))
#define EK_TRACK_MAX_ONE_OF_4 EK_TRACK_ONE_OF_4(EK_FRAME_MAX)
#define EK_TRACK_MAX_ONE_OF_256 EK_TRACK_ONE_OF_256(EK_FRAME_MAX)
#define EK_TRACK_MAX EK_TRACK_MAX_ONE_OF_256

/*
 * The check (CRC) of ISO/IEC 13239 over length bytes. It is sent low byte
 * first. No bytes have the check 0x0000. Refuses nothing.
 * Its table is constant data of the archive, read in place and not copied.
 */
uint16_t ek_check(const uint8_t *bytes, size_t length);

/*
 * Whether a frame is sound: 4 to EK_FRAME_MAX bytes, of which the last two
 * are the check of the others, low byte first. Refuses nothing.
 */
bool ek_is_sound(const uint8_t *frame, size_t length);

/*
 * Appends the check to the first length bytes of buffer, low byte first, and
 * returns the new length, length + 2. Only these two bytes change.
 * EK_REFUSED_ROOM: room is less than length + 2.
 */
int64_t ek_seal(uint8_t *buffer, size_t room, size_t length);

/*
 * Codes a frame of length bytes as a pulse track: eight intervals of 9.44 us
 * to a byte, the earliest in the top bit, 1 for a pause. Returns the track's
 * length, 2 + 4 * length or 2 + 64 * length; it stands at the start of track.
 * EK_REFUSED_FRAME_OR_CODING: length is over EK_FRAME_MAX, or coding is
 * neither EK_ONE_OF_4 nor EK_ONE_OF_256. EK_REFUSED_ROOM, looked for after
 * that: room is less than the track's length.
 */
int64_t ek_code(const uint8_t *frame, size_t length, uint32_t coding,
                uint8_t *track, size_t room);

/*
 * Reads a track of length bytes. The answer r, if it is not negative, holds
 * two numbers: EK_DECODED_KIND(r) is EK_ONE_OF_4 or EK_ONE_OF_256, the coding
 * of a frame, or EK_SLOT_MARK; EK_DECODED_LENGTH(r) is the frame's length, 0
 * to EK_FRAME_MAX (0 for a slot mark). The frame stands at the start of frame.
 * A refusal is negative, so a frame of 8 or 9 bytes is never taken for one.
 * EK_REFUSED_ROOM: room is less than EK_FRAME_MAX, whatever the track is.
 * EK_REFUSED_NO_TRACK, looked for after that: the bytes are no track of a
 * frame of 0 to EK_FRAME_MAX bytes and no slot mark.
 */
int64_t ek_decode(const uint8_t *track, size_t length, uint8_t *frame,
                  size_t room);

#define EK_DECODED_KIND(r) ((int)((r) / 65536))
#define EK_DECODED_LENGTH(r) ((size_t)((r) % 65536))

/* A number of up to 8 bytes, least significant byte first: read, and put. */
static inline uint64_t ek_get_number(const uint8_t *bytes, size_t count)
{
    uint64_t number = 0;
    while (count > 0) {
        count--;
        number = number << 8 | bytes[count];
    }
    return number;
}

static inline void ek_put_number(uint8_t *bytes, size_t count, uint64_t number)
{
    for (size_t i = 0; i < count; i++) {
        bytes[i] = (uint8_t)number;
        number >>= 8;
    }
}

/*
 * A request begins with its flags and its command; then come the UID where it
 * is addressed, the body, and the check. The two lowest flags are the radio's.
 */
#define EK_FLAG_INVENTORY 0x04

/* With EK_FLAG_INVENTORY: a family is named; one slot, without it sixteen. */
#define EK_FLAG_AFI 0x10
#define EK_FLAG_ONE_SLOT 0x20

/* Without EK_FLAG_INVENTORY. */
#define EK_FLAG_SELECT 0x10
#define EK_FLAG_ADDRESS 0x20
#define EK_FLAG_OPTION 0x40

#define EK_COMMAND_INVENTORY 0x01
#define EK_COMMAND_STAY_QUIET 0x02
#define EK_COMMAND_READ_SINGLE_BLOCK 0x20
#define EK_COMMAND_WRITE_SINGLE_BLOCK 0x21
#define EK_COMMAND_LOCK_BLOCK 0x22
#define EK_COMMAND_READ_MULTIPLE_BLOCKS 0x23
#define EK_COMMAND_SELECT 0x25
#define EK_COMMAND_RESET_TO_READY 0x26
#define EK_COMMAND_WRITE_AFI 0x27
#define EK_COMMAND_LOCK_AFI 0x28
#define EK_COMMAND_WRITE_DSFID 0x29
#define EK_COMMAND_LOCK_DSFID 0x2A
#define EK_COMMAND_GET_SYSTEM_INFORMATION 0x2B
#define EK_COMMAND_GET_MULTIPLE_BLOCK_SECURITY_STATUS 0x2C

/* An answer begins with one of these; after the second comes an error code. */
#define EK_ANSWER_SUCCESS 0x00
#define EK_ANSWER_ERROR 0x01

#define EK_ERROR_COMMAND 0x01 /* command not listed above */
#define EK_ERROR_LENGTH 0x02  /* body of a wrong length */
#define EK_ERROR_OPTION 0x03  /* Option where the command has none */
#define EK_ERROR_BLOCK 0x10   /* block outside the memory */
#define EK_ERROR_RELOCK 0x11  /* locking what is locked */
#define EK_ERROR_LOCKED 0x12  /* writing what is locked */

/* The answer to an inventory: its length, and the places of its bytes. */
#define EK_INVENTORY_ANSWER 12
#define EK_INVENTORY_FLAGS 0 /* EK_ANSWER_SUCCESS */
#define EK_INVENTORY_DSFID 1
#define EK_INVENTORY_UID 2    /* 8 bytes */
#define EK_INVENTORY_CHECK 10 /* 2 bytes */

/*
 * A card, played by its tag's four buffers. All are the caller's, who keeps
 * them from one call to the next; the first three are the card:
 *
 *   record  EK_CARD_RECORD bytes, laid out as below.
 *   memory  the blocks one after another: blocks * size bytes.
 *   locks   a byte for each block: 0 open, 1 locked.
 *   answer  room for what the card says: EK_CARD_ROOM(blocks, size) bytes or
 *           more. An answer has its check and can be sent as it stands.
 *
 * The record, numbers least significant byte first:
 *
 *   EK_CARD_UID          8 bytes   the UID, as it is sent
 *   EK_CARD_BLOCKS       4 bytes   how many blocks, 1 to EK_CARD_BLOCKS_MAX
 *   EK_CARD_SIZE         4 bytes   how many bytes a block has, 1 to
 *                                  EK_CARD_SIZE_MAX
 *   EK_CARD_AFI          1 byte    the AFI: called by itself, by its high
 *                                  digit with a low 0 (31 by 30, but not 30 by
 *                                  31), and by 00
 *   EK_CARD_DSFID        1 byte
 *   EK_CARD_AFI_LOCKED   1 byte    0 open, all else locked
 *   EK_CARD_DSFID_LOCKED 1 byte    0 open, all else locked
 *   EK_CARD_IC           1 byte    IC reference
 *   EK_CARD_MODE         1 byte    EK_MODE_READY, EK_MODE_QUIET, all else
 *                                  Selected
 *   EK_CARD_SEQUENCE     1 byte    0 no slot sequence, all else one runs
 *   EK_CARD_SLOT         1 byte    its slot, 0 to 15
 *   EK_CARD_MASK_LENGTH  1 byte    its mask length in bits, 0 to 60
 *   EK_CARD_HELD         1 byte    the held answer: EK_HELD_NONE,
 *                                  EK_HELD_SUCCESS, all else an error code
 *   EK_CARD_FREE         6 bytes   reserved: put 0, left as found
 *   EK_CARD_MASK         8 bytes   its mask, with no bit set above its length
 *
 * With no sequence its slot, mask length and mask are not read. So a new card
 * is a record of zeros with a UID and a shape, as ek_card_new makes it; a field
 * of one byte is then put as in record[EK_CARD_AFI] = 0x31.
 *
 * A call that is served writes the next record: a flag as 0 or 1, the mode as
 * one of EK_MODE_.., and with no sequence its four fields as 0. It returns the
 * answer's length, or 0 for silence, which leaves the answer's buffer as found.
 *
 * Each of the three calls looks for its refusals in this order, and a refused
 * call has changed no byte of any buffer:
 *   EK_REFUSED_CARD: the record has another length; blocks or size are outside
 *   their limits; a sequence runs whose slot is over 15, whose mask length is
 *   over 60, or whose mask has a bit above it; a held code is none of
 *   EK_ERROR_LENGTH, EK_ERROR_BLOCK, EK_ERROR_RELOCK and EK_ERROR_LOCKED.
 *   EK_REFUSED_CARD_LENGTHS: memory_length is not blocks * size, or
 *   locks_length is not blocks.
 *   EK_REFUSED_CARD_LOCK: a lock byte is over 1.
 *   EK_REFUSED_CARD_ROOM: room is less than EK_CARD_ROOM(blocks, size).
 */
#define EK_CARD_RECORD 40
#define EK_CARD_UID 0
#define EK_CARD_BLOCKS 8
#define EK_CARD_SIZE 12
#define EK_CARD_AFI 16
#define EK_CARD_DSFID 17
#define EK_CARD_AFI_LOCKED 18
#define EK_CARD_DSFID_LOCKED 19
#define EK_CARD_IC 20
#define EK_CARD_MODE 21
#define EK_CARD_SEQUENCE 22
#define EK_CARD_SLOT 23
#define EK_CARD_MASK_LENGTH 24
#define EK_CARD_HELD 25
#define EK_CARD_FREE 26
#define EK_CARD_MASK 32

/* The largest shape. */
#define EK_CARD_BLOCKS_MAX 256
#define EK_CARD_SIZE_MAX 32

#define EK_MODE_READY 0
#define EK_MODE_QUIET 1
#define EK_MODE_SELECTED 2

#define EK_HELD_NONE 0
#define EK_HELD_SUCCESS 1

/*
 * The room that an answer needs: 3 + blocks * (size + 1), and 32 at least. Both
 * arguments are evaluated twice.
 */
#define EK_CARD_ROOM(blocks, size)                                             \
    ((blocks) * ((size) + 1) < 29 ? 32 : 3 + (blocks) * ((size) + 1))

/*
 * Makes the record of a new card, all its EK_CARD_RECORD bytes: Ready, nothing
 * locked, all but UID and shape 0. The UID 0xE004010000000021 is sent as 21 00
 * 00 00 00 01 04 E0. A shape outside the limits is put too, and is refused by
 * each event.
 */
static inline void ek_card_new(uint8_t *record, uint64_t uid, uint32_t blocks,
                               uint32_t size)
{
    for (size_t i = 0; i < EK_CARD_RECORD; i++) {
        record[i] = 0;
    }
    ek_put_number(record + EK_CARD_UID, 8, uid);
    ek_put_number(record + EK_CARD_BLOCKS, 4, blocks);
    ek_put_number(record + EK_CARD_SIZE, 4, size);
}

/* What a record of EK_CARD_RECORD bytes holds, as the events take it. */
static inline uint64_t ek_card_uid(const uint8_t *record)
{
    return ek_get_number(record + EK_CARD_UID, 8);
}

static inline uint32_t ek_card_blocks(const uint8_t *record)
{
    return (uint32_t)ek_get_number(record + EK_CARD_BLOCKS, 4);
}

static inline uint32_t ek_card_size(const uint8_t *record)
{
    return (uint32_t)ek_get_number(record + EK_CARD_SIZE, 4);
}

static inline uint8_t ek_card_afi(const uint8_t *record)
{
    return record[EK_CARD_AFI];
}

static inline uint8_t ek_card_dsfid(const uint8_t *record)
{
    return record[EK_CARD_DSFID];
}

static inline bool ek_card_afi_locked(const uint8_t *record)
{
    return record[EK_CARD_AFI_LOCKED] != 0;
}

static inline bool ek_card_dsfid_locked(const uint8_t *record)
{
    return record[EK_CARD_DSFID_LOCKED] != 0;
}

static inline uint8_t ek_card_ic(const uint8_t *record)
{
    return record[EK_CARD_IC];
}

/* EK_MODE_READY, EK_MODE_QUIET or EK_MODE_SELECTED. */
static inline uint8_t ek_card_mode(const uint8_t *record)
{
    return record[EK_CARD_MODE] < EK_MODE_SELECTED ? record[EK_CARD_MODE]
                                                   : EK_MODE_SELECTED;
}

/* EK_HELD_NONE, EK_HELD_SUCCESS or an error code. */
static inline uint8_t ek_card_held(const uint8_t *record)
{
    return record[EK_CARD_HELD];
}

/* Whether a slot sequence runs; the next three mean something only if so. */
static inline bool ek_card_sequence(const uint8_t *record)
{
    return record[EK_CARD_SEQUENCE] != 0;
}

static inline uint8_t ek_card_slot(const uint8_t *record)
{
    return record[EK_CARD_SLOT];
}

static inline uint8_t ek_card_mask_length(const uint8_t *record)
{
    return record[EK_CARD_MASK_LENGTH];
}

static inline uint64_t ek_card_mask(const uint8_t *record)
{
    return ek_get_number(record + EK_CARD_MASK, 8);
}

/*
 * A frame of length bytes arrives, good or bad. May change the record, a block
 * of the memory or a lock byte.
 */
int64_t ek_card_frame(uint8_t *record, size_t record_length,
                      const uint8_t *frame, size_t length, uint8_t *memory,
                      size_t memory_length, uint8_t *locks,
                      size_t locks_length, uint8_t *answer, size_t room);

/*
 * A slot mark arrives: a held answer is released, or a running sequence goes
 * on to its next slot.
 */
int64_t ek_card_mark(uint8_t *record, size_t record_length,
                     const uint8_t *memory, size_t memory_length,
                     const uint8_t *locks, size_t locks_length,
                     uint8_t *answer, size_t room);

/*
 * The power goes off: the card is Ready, and its sequence and held answer are
 * gone. Returns 0 where it is served. The answer's buffer is not written.
 */
int64_t ek_card_power_off(uint8_t *record, size_t record_length,
                          const uint8_t *memory, size_t memory_length,
                          const uint8_t *locks, size_t locks_length,
                          const uint8_t *answer, size_t room);

/*
 * The walk: an inventory of the tags in the field, slot by slot. The board
 * keeps one record of it, which these calls change where it stands, and a list
 * of the UIDs that were found:
 *
 *     struct ek_walk walk;
 *     uint64_t list[EK_LIST_PLACES];
 *     uint8_t request[EK_REQUEST_MAX];
 *     ek_walk_start(&walk, EK_WALK_NO_FAMILY);
 *     for (;;) {
 *         int64_t n = ek_walk_ask(&walk, request, sizeof request);
 *         if (n < 0) ..                             refused: stop and tell
 *         else if (n == EK_SEND_NOTHING) break;     ended: see walk.ending
 *         else if (n == EK_SEND_MARK) ..            send a slot mark
 *         else ..                                   send n bytes of request
 *         .. listen, then n = one of the three calls ek_walk_hear_..
 *         if (n < 0) ..                             refused: stop and tell
 *     }
 *
 * Every UID begins with E0 (ISO/IEC 15693-3, clause 4.1). So two that differ do
 * so in their low fourteen digits, and the walk has EK_WALK_LEVELS levels. A
 * tag in the field whose UID does not begin with E0 is heard as a clash and
 * never listed, and while it answers the walk never ends EK_WALK_COMPLETE: even
 * alone in its slot it leads the walk down to the last level and to
 * EK_WALK_TWINS there, unless EK_WALK_FULL comes before. espenknoten(3) says
 * what to do.
 *
 * The record has no hidden part: it may be copied, kept and read at any time.
 * Its pointer is never NULL, and it overlaps no buffer of the same call.
 * Every value of every field has a meaning. A call that gives EK_REFUSED_WALK
 * has left the record as it is: its level is over 13, its slot over 15, its
 * count over EK_LIST_PLACES, its rounds are 0 or over EK_WALK_ROUNDS_MAX, its
 * mask has a bit above the low 4 * level, or a mark stands at a level deeper
 * than its own or at the last. ek_shared_hear_.. gives it for its list too, as
 * told there.
 */
#define EK_WALK_LEVELS 14 /* 0 to 13 */

struct ek_walk {
    /* for each level: bit s is set while slot s clashed there and waits to be
       opened */
    uint16_t marks[EK_WALK_LEVELS];
    uint16_t rounds;    /* the rounds begun, 1 to EK_WALK_ROUNDS_MAX */
    uint16_t family;    /* 0 to 255: an AFI, where 0xX0 calls all tags of high
                           digit X, 0 all tags, any other only its own; all
                           else: no family, all tags */
    uint32_t mask_low;  /* the digits opened so far: the low 4 * level bits */
    uint32_t mask_high; /* of mask_low + mask_high * 2^32, see ek_walk_mask */
    uint8_t level;      /* the digits of the mask, 0 to 13 */
    uint8_t slot;       /* the slot to be heard next, 0 to 15 */
    uint8_t count;      /* the UIDs listed, 0 to EK_LIST_PLACES */
    uint8_t ending;     /* one of EK_WALK_.. below; all else: overrun */
};

/*
 * The record is 44 bytes, without padding: else this does not compile. It is
 * aligned as uint32_t is.
 */
typedef char ek_walk_has_44_bytes[sizeof(struct ek_walk) == 44 ? 1 : -1];

/* The mask of a walk as one number. */
static inline uint64_t ek_walk_mask(const struct ek_walk *walk)
{
    return (uint64_t)walk->mask_high << 32 | walk->mask_low;
}

/* The walk's endings, and 0 as long as it runs. */
#define EK_WALK_RUNNING 0
#define EK_WALK_COMPLETE 1 /* no clash waits */
#define EK_WALK_TWINS 2    /* a clash at level 13, as of two UIDs alike */
#define EK_WALK_FULL 3     /* a UID with EK_LIST_PLACES listed; shared: below */
#define EK_WALK_OVERRUN 4  /* a round over EK_WALK_ROUNDS_MAX was needed */

#define EK_WALK_NO_FAMILY 256
#define EK_WALK_ROUNDS_MAX 417

/* The places of the list, and the room that a request has to have. */
#define EK_LIST_PLACES 64
#define EK_REQUEST_MAX 14 /* the longest request takes 13 */

/* What ek_walk_ask returns where there is no request to send. */
#define EK_SEND_NOTHING 0
#define EK_SEND_MARK 1

/*
 * Starts a walk over whatever stands in the record; it is not looked at. A
 * family 0xX0 with X not 0 calls the tags whose AFI has the high digit X; 0 and
 * EK_WALK_NO_FAMILY call all tags; any other AFI calls only the tags that have
 * it. Refuses nothing.
 */
void ek_walk_start(struct ek_walk *walk, uint16_t family);

/*
 * What to send now; it may be asked often, and the record stays as it is. The
 * length of a request, 5 to 13, which then stands at the start of request; or
 * EK_SEND_MARK for a slot mark; or EK_SEND_NOTHING after an ending. For the
 * last two no byte of request changes.
 * EK_REFUSED_WALK. EK_REFUSED_ROOM, looked for after that: what to send is a
 * request, and room is less than EK_REQUEST_MAX, whatever the request needs.
 */
int64_t ek_walk_ask(const struct ek_walk *walk, uint8_t *request, size_t room);

/*
 * The slot is over: nothing was heard, or something that can't be read, or
 * length bytes. Bytes are a clean reply if there are EK_INVENTORY_ANSWER of
 * them, sealed, they begin with EK_ANSWER_SUCCESS, and their UID fits mask and
 * slot and begins with E0; all else is a clash. Returns 0. The record is then
 * that of the next slot, or of the next round, or an ending has been noted in
 * it; the UID of a clean reply, unless the walk ends EK_WALK_FULL at it, stands
 * in list at the place that walk->count had, and no other place changes. Only
 * the first EK_LIST_PLACES places are used.
 * In this order EK_REFUSED_WALK, EK_REFUSED_ENDED, EK_REFUSED_LIST, which is a
 * list of fewer than EK_LIST_PLACES places: the record and the list stay as
 * they are.
 */
int64_t ek_walk_hear_silence(struct ek_walk *walk, uint64_t *list,
                             size_t places);
int64_t ek_walk_hear_clash(struct ek_walk *walk, uint64_t *list,
                           size_t places);
int64_t ek_walk_hear_bytes(struct ek_walk *walk, const uint8_t *bytes,
                           size_t length, uint64_t *list, size_t places);

/*
 * The shared list: two racks, 0 and 1, each with a walk of its own, and one
 * list of EK_LIST_PLACES rows for both. Beside each row stands its owner's
 * mark: the number of the rack that owns it, or EK_ROW_FREE. A rack's list is
 * the rows that it owns, from row 0 on:
 *
 *     struct ek_walk walk;                          one for each rack
 *     uint64_t rows[EK_LIST_PLACES];                one list for both
 *     uint8_t owners[EK_LIST_PLACES];
 *     memset(owners, EK_ROW_FREE, sizeof owners);   an empty list, once;
 *                                                   zeros are rack 0's rows
 *     int64_t n = ek_shared_start(&walk, rack, EK_WALK_NO_FAMILY, owners,
 *                                 sizeof owners);
 *     if (n < 0) ..                                 refused: stop and tell
 *     .. the loop above, with n = one of the three calls ek_shared_hear_..
 *        (&walk, rack, .., rows, EK_LIST_PLACES, owners, sizeof owners)
 *     for (i = 0; i < EK_LIST_PLACES; i++) {
 *         if (owners[i] == rack) ..                 rows[i] is in its list
 *     }
 *
 * Only EK_WALK_COMPLETE says that a rack's list is whole. Between calls the
 * lists of both may be read.
 *
 * A UID goes into the lowest free row. A rack owns EK_RACK_ROWS_MAX rows at the
 * most, so that 24 are always left for the other; EK_WALK_FULL means here that
 * a UID came while its rack owned so many, or no row was free. A UID that both
 * racks hear takes a row in each. To start a rack's walk anew frees its rows,
 * and no others; until then it keeps them, also after an ending. Both walks may
 * run, their calls in turn: as both are lent the list, never two at once, nor
 * one in a handler that interrupts the other. But a tag follows the last
 * request that reaches it. Where a tag hears both racks let one walk end before
 * the other sends: else both may end EK_WALK_COMPLETE without it.
 *
 * With up to 24 tags answering a rack, their UIDs beginning with E0, its walk
 * ends as one that has a list of its own: EK_WALK_COMPLETE, or EK_WALK_TWINS
 * where two are alike. With 25 to EK_RACK_ROWS_MAX it may also end
 * EK_WALK_FULL, two alike or not, where the other rack has left too few rows:
 * when more are free, start it anew. With more tags it never ends
 * EK_WALK_COMPLETE.
 *
 * A walk keeps to the calls, the rack and the list that it was started with:
 * ek_walk_start goes with ek_walk_hear_.., ek_shared_start with
 * ek_shared_hear_.. of the same rack; ek_walk_ask serves both. The record tells
 * none of this: a wrong call, or an older copy of the record put back, is
 * refused (EK_REFUSED_WALK) only where walk->count is not the number of rows
 * that the named rack owns. Where it is served the lists are spoilt: start both
 * racks anew. What ek_walk_hear_.. lists may overwrite a row of the other rack:
 * it looks at no mark.
 */
#define EK_ROW_FREE 255     /* the mark of a row that no rack owns */
#define EK_RACK_ROWS_MAX 40 /* the most rows that a rack owns */

/*
 * Starts a rack's walk as ek_walk_start does, over whatever stands in the
 * record, and frees the rack's rows: each of its marks becomes EK_ROW_FREE. No
 * other mark changes, and no row, so the UIDs stand there until others take
 * their place. It is served also where a rack owns too many rows to be heard.
 * Returns 0. Only the first EK_LIST_PLACES marks are looked at.
 * EK_REFUSED_RACK: rack is neither 0 nor 1. EK_REFUSED_LIST, looked for after
 * that: marks is less than EK_LIST_PLACES, or one of them is none of
 * EK_ROW_FREE, 0 and 1. The record and the marks stay as they are.
 */
int64_t ek_shared_start(struct ek_walk *walk, uint32_t rack, uint16_t family,
                        uint8_t *owners, size_t marks);

/*
 * The slot of a rack's walk is over, as for ek_walk_hear_.. above. Returns 0.
 * The record is then changed as there, but that EK_WALK_FULL comes as told for
 * a shared list; the UID of a clean reply, unless the walk ends so, stands in
 * the lowest free row, whose mark is now the rack's. No other row changes, and
 * no other mark. Only the first EK_LIST_PLACES rows and marks are looked at.
 * In this order, and the record, the rows and the marks stay as they are:
 *   EK_REFUSED_RACK: rack is neither 0 nor 1.
 *   EK_REFUSED_WALK: the record, as for any walk.
 *   EK_REFUSED_ENDED: the walk has ended.
 *   EK_REFUSED_LIST: places or marks are less than EK_LIST_PLACES, or a mark is
 *   none of EK_ROW_FREE, 0 and 1.
 *   EK_REFUSED_WALK: a rack, this or the other, owns more than EK_RACK_ROWS_MAX
 *   rows; or walk->count is not the number of rows that this rack owns.
 */
int64_t ek_shared_hear_silence(struct ek_walk *walk, uint32_t rack,
                               uint64_t *rows, size_t places, uint8_t *owners,
                               size_t marks);
int64_t ek_shared_hear_clash(struct ek_walk *walk, uint32_t rack,
                             uint64_t *rows, size_t places, uint8_t *owners,
                             size_t marks);
int64_t ek_shared_hear_bytes(struct ek_walk *walk, uint32_t rack,
                             const uint8_t *bytes, size_t length,
                             uint64_t *rows, size_t places, uint8_t *owners,
                             size_t marks);

/*
 * The reader's half of the block commands: a request to a tag, and what its
 * answer says. The rack walks the field, asks each UID that was listed for its
 * blocks, and shows them:
 *
 *     struct ek_request request = {0};
 *     request.uid = list[i];
 *     request.mode = EK_TO_UID;
 *     request.command = EK_COMMAND_READ_SINGLE_BLOCK;
 *     request.size = 4;
 *     request.first = 2;
 *     int64_t n = ek_make(request, NULL, 0, frame, sizeof frame);
 *     if (n < 0) ..                                 refused: stop and tell
 *     .. send n bytes of frame, and listen: length bytes of answer
 *     struct ek_reading got =
 *         ek_read(request, answer, length, block, 4, NULL, 0);
 *     if (got.answer < 0) ..                          not read
 *     else if (EK_READ_KIND(got.answer) == EK_READ_ERROR) ..
 *                                     the tag's code: EK_READ_VALUE(got.answer)
 *     else ..                                    block has the tag's four bytes
 *
 * Every value of every field has a meaning. Fields that a command has no use
 * for are not looked at, but for the size. The structs go by value: nothing of
 * them is lent.
 */
struct ek_request {
    uint64_t uid;    /* of the tag, where mode is EK_TO_UID */
    uint16_t size;   /* the bytes of one of its blocks, 1 to EK_CARD_SIZE_MAX */
    uint8_t command; /* one of EK_COMMAND_.. from READ_SINGLE_BLOCK on */
    uint8_t mode;    /* one of EK_TO_.. below; all else: EK_TO_SELECTED */
    uint8_t option;  /* 0: Option is not set; all else: it is */
    uint8_t first;   /* the block of 20 to 23 and 2C */
    uint8_t n;       /* how many more after it, of 23 and 2C */
    uint8_t value;   /* the AFI or DSFID that 27 and 29 write */
};

/* To whom a request goes. Select (25) goes to a UID only. */
#define EK_TO_ALL 0      /* every tag that is not Quiet */
#define EK_TO_UID 1      /* the tag of this UID */
#define EK_TO_SELECTED 2 /* the tag that is Selected */

/* What a tag says of itself (2B). */
struct ek_information {
    uint64_t uid;
    uint16_t blocks; /* how many, 1 to 256 */
    uint16_t size;   /* the bytes of each, 1 to 256 */
    uint8_t dsfid;
    uint8_t afi;
    uint8_t ic;    /* IC reference */
    uint8_t flags; /* which of these the tag told: EK_INFORMATION_ALL */
};

#define EK_INFORMATION_ALL 0x0F

/* What ek_read returns. */
struct ek_reading {
    int64_t answer; /* a refusal, else kind and value: see below */
    struct ek_information information; /* zeros but for EK_READ_INFORMATION */
};

/* They have no padding: else this does not compile. */
typedef char ek_request_has_16_bytes[sizeof(struct ek_request) == 16 ? 1 : -1];
typedef char ek_reading_has_24_bytes[sizeof(struct ek_reading) == 24 ? 1 : -1];

/* The longest request that ek_make makes; the shortest and longest answer. */
#define EK_MADE_MAX 45
#define EK_ANSWER_MIN 3
#define EK_ANSWER_MAX 8451

/*
 * Makes a request: its length, 4 to EK_MADE_MAX, with its check; its bytes
 * stand at the start of frame. Data of length bytes are those that 21 writes;
 * for another command they are not looked at.
 * EK_REFUSED_REQUEST: command is none of 20 to 23 and 25 to 2C; or it is 25
 * and mode is not EK_TO_UID; or size is not 1 to EK_CARD_SIZE_MAX; or command
 * is 21 and length is not size. EK_REFUSED_ROOM, looked for after that: room
 * is less than EK_MADE_MAX, whatever the request needs.
 */
int64_t ek_make(struct ek_request request, const uint8_t *data, size_t length,
                uint8_t *frame, size_t room);

/*
 * Reads an answer of length bytes to this request. The number answer, if it is
 * not negative, holds two: EK_READ_KIND(answer) is what was read, one of
 * EK_READ_..; EK_READ_VALUE(answer) a count or a code:
 *
 *   EK_READ_DONE         0            21, 22, 25 to 2A: the tag has done it
 *   EK_READ_BLOCKS       block bytes  20, 23: they stand at the start of
 *                                     blocks; with Option a lock byte for each
 *                                     block stands at the start of locks
 *   EK_READ_LOCKS        lock bytes   2C: they stand at the start of locks
 *   EK_READ_INFORMATION  0            2B: it stands in information
 *   EK_READ_ERROR        code         the tag's error code, EK_ERROR_.. or any
 *                                     other: no byte of either buffer changes
 *
 * EK_REFUSED_REQUEST: as for ek_make, but for the data. EK_REFUSED_ROOM, looked
 * for after that: blocks or locks have no room for every byte asked. That is,
 * for 20 and 23, size bytes of blocks for each block, and with Option a byte of
 * locks; for 2C, Option or not, a byte of locks for each block; else none.
 * EK_REFUSED_ANSWER, after that: the check is wrong; or the flags are neither
 * EK_ANSWER_SUCCESS nor EK_ANSWER_ERROR; or an error has not 4 bytes; or a
 * success has not the length that its request earns, as when the tag's blocks
 * have another size; or the information does not begin with
 * EK_INFORMATION_ALL.
 */
struct ek_reading ek_read(struct ek_request request, const uint8_t *answer,
                          size_t length, uint8_t *blocks, size_t blocks_room,
                          uint8_t *locks, size_t locks_room);

#define EK_READ_DONE 1
#define EK_READ_BLOCKS 2
#define EK_READ_LOCKS 3
#define EK_READ_INFORMATION 4
#define EK_READ_ERROR 5

#define EK_READ_KIND(answer) ((int)((answer) / 65536))
#define EK_READ_VALUE(answer) ((size_t)((answer) % 65536))

/*
 * The coil: answers of tags as a front end hears them that gives raw
 * subcarrier, one subcarrier at the high data rate. A track packs eight units
 * of 18.88 us into a byte, the earliest in the top bit, 1 for subcarrier. It is
 * EK_COIL_START, two bytes for each byte of the answer, and EK_COIL_END; its
 * first three units and its last three have no subcarrier. A bit 0 is the pair
 * of units 10, a bit 1 is 01, the lowest bit first: E1 is 6A 95.
 *
 * Where tags answer at once, their tracks lie over each other: a unit has
 * subcarrier if it has in one of them. A pair 11 is a clash; a pair 00, which
 * no tag sends, is lost. Different answers over each other, of whatever
 * lengths, are always read as a clash; identical ones are read as one. The
 * front end cuts the track: its first unit is the top bit of the first byte.
 * Undisturbed, no such track has a byte EK_COIL_END before its last. One that is
 * disturbed may, and cut there it may be read as a shorter answer: its check
 * tells, and the walk and ek_read look at it.
 *
 * So a walk on the coil counts different answers and not tags: two tags alike
 * in UID and DSFID count as one, and EK_WALK_TWINS means, of UIDs that begin
 * with E0, one UID with different DSFIDs. What to tell the walk of a slot, r
 * being what ek_coil_decode returns:
 *
 *   no subcarrier                              ek_walk_hear_silence
 *   EK_COIL_KIND(r) is EK_COIL_ANSWER          ek_walk_hear_bytes
 *   it is EK_COIL_CLASH or EK_COIL_LOST        ek_walk_hear_clash
 *   r is EK_REFUSED_NO_ANSWER_TRACK            ek_walk_hear_clash
 *
 * A walk over a shared list is told the same by ek_shared_hear_.. in its place;
 * 24 and EK_RACK_ROWS_MAX then count different answers. What is proved of whole
 * walks on the coil is proved for a walk with a list of its own.
 */
#define EK_COIL_START 0x1D
#define EK_COIL_END 0xB8

/* The length of the track of an answer of n bytes, and the longest track. */
#define EK_COIL_TRACK(n) (2 + 2 * (n))
#define EK_COIL_TRACK_MAX EK_COIL_TRACK(EK_ANSWER_MAX)

/*
 * Codes an answer of length bytes, any bytes: no check is asked for. Returns
 * the track's length, 2 + 2 * length; it stands at the start of track.
 * EK_REFUSED_ANSWER_LENGTH: length is not EK_ANSWER_MIN to EK_ANSWER_MAX.
 * EK_REFUSED_ROOM, looked for after that: room is less than the track's length.
 */
int64_t ek_coil_code(const uint8_t *answer, size_t length, uint8_t *track,
                     size_t room);

/*
 * Reads a track of length bytes. The number r that it returns, if it is not
 * negative, holds two: EK_COIL_KIND(r) is what was read, EK_COIL_NUMBER(r) a
 * length or a place:
 *
 *   EK_COIL_ANSWER  length  an answer, EK_ANSWER_MIN to EK_ANSWER_MAX bytes: it
 *                           stands at the start of answer; no check is looked
 *                           at
 *   EK_COIL_CLASH   place   the first bad bit is a clash: no byte changes
 *   EK_COIL_LOST    place   the first bad bit is lost: no byte changes
 *
 * The first bit is the earliest. Its place is 8 * byte + bit, both from 0, the
 * lowest bit 0: up to 67,607. The kind of a refusal is -1, so that it is never
 * taken for an answer; its EK_COIL_NUMBER tells nothing.
 * EK_REFUSED_ROOM: room is less than EK_ANSWER_MAX, whatever the track is.
 * EK_REFUSED_NO_ANSWER_TRACK, looked for after that: the first byte is not
 * EK_COIL_START, or the last not EK_COIL_END, or length is not that of the
 * track of an answer.
 */
int64_t ek_coil_decode(const uint8_t *track, size_t length, uint8_t *answer,
                       size_t room);

#define EK_COIL_ANSWER 0
#define EK_COIL_CLASH 1
#define EK_COIL_LOST 2

#define EK_COIL_KIND(r) ((int)(((r) + 131072) / 131072) - 1)
#define EK_COIL_NUMBER(r) ((size_t)((r) % 131072))

#ifdef __cplusplus
}
#endif

#endif

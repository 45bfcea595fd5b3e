/* The plain card as a struct, and the two events that need no memory: what the
 * plain bench program keeps in its row. */
#ifndef PLAIN_CARD_H
#define PLAIN_CARD_H

#include <stdbool.h>
#include <stddef.h>
#include <stdint.h>

/* An inventory answer, with its check. */
#define PLAIN_ANSWER 12

enum mode { READY, QUIET, SELECTED };
enum reply { SILENCE, ERROR, DONE, PRESENT, READ, STATUS, INFORMATION };

struct card {
    uint64_t uid, mask;
    uint32_t blocks, size;
    uint8_t afi, dsfid, ic, slot, mask_length, held;
    bool afi_locked, dsfid_locked, running;
    enum mode mode;
};

/* A frame to a card without memory: one that is no inventory request only ends
 * the sequence and drops a held answer. */
enum reply plain_hear_inventory(struct card *card, const uint8_t *frame,
                                size_t length);

enum reply plain_hear_mark(struct card *card);

/* The answer of a card that is PRESENT. */
void plain_answer(const struct card *card, uint8_t *answer);

#endif

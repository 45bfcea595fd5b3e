/* A benchmark of two programs that do different things says nothing: these end
 * the run with a message where the library, plain C and the best of it
 * differ. */
#ifndef SAME_H
#define SAME_H

#include <stdint.h>

/* The check of each byte alone: every entry of a table is looked up. */
void must_check_same(void);

/* A frame of EK_FRAME_MAX bytes and its first bytes: check, track and back. */
void must_be_same(const uint8_t *frame);

/* Short rooms, wrong codings, tracks cut short, damaged and too long. */
void must_refuse_same(const uint8_t *frame);

/* The first bytes of EK_ANSWER_MAX + 1, as answers: coded for the coil and read
 * back; short rooms, wrong lengths, tracks with bits that clash or are lost. */
void must_be_same_on_coil(const uint8_t *answer);

/* Cards through many frames, slot marks and power offs, some of them refused. */
void must_play_same(void);

#endif

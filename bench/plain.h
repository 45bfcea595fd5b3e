/* The check, coders, decoders and card in plain C, with the answers of
 * espenknoten.h: what the benchmark measures the library against. */
#ifndef PLAIN_H
#define PLAIN_H

#include <stddef.h>
#include <stdint.h>

/* By a table, as the library does: the check of all plain programs. */
uint16_t plain_check(const uint8_t *bytes, size_t length);

/* The same bit by bit, as a peer for the check alone. */
uint16_t plain_check_by_bits(const uint8_t *bytes, size_t length);

int64_t plain_code(const uint8_t *frame, size_t length, uint32_t coding,
                   uint8_t *track, size_t room);

int64_t plain_decode(const uint8_t *track, size_t length, uint8_t *frame,
                     size_t room);

int64_t plain_coil_code(const uint8_t *answer, size_t length, uint8_t *track,
                        size_t room);

int64_t plain_coil_decode(const uint8_t *track, size_t length, uint8_t *answer,
                          size_t room);

int64_t plain_card_frame(uint8_t *record, size_t record_length,
                         const uint8_t *frame, size_t length, uint8_t *memory,
                         size_t memory_length, uint8_t *locks,
                         size_t locks_length, uint8_t *answer, size_t room);

int64_t plain_card_mark(uint8_t *record, size_t record_length,
                        const uint8_t *memory, size_t memory_length,
                        const uint8_t *locks, size_t locks_length,
                        uint8_t *answer, size_t room);

int64_t plain_card_power_off(uint8_t *record, size_t record_length,
                             const uint8_t *memory, size_t memory_length,
                             const uint8_t *locks, size_t locks_length,
                             const uint8_t *answer, size_t room);

#endif

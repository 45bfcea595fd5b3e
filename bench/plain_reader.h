/* The reader's half of the block commands in plain C, with the structs and the
 * answers of espenknoten.h: what the benchmark measures the library's
 * against. */
#ifndef PLAIN_READER_H
#define PLAIN_READER_H

#include <stddef.h>
#include <stdint.h>

#include "espenknoten.h"

int64_t plain_make(struct ek_request request, const uint8_t *data,
                   size_t length, uint8_t *frame, size_t room);

struct ek_reading plain_read(struct ek_request request, const uint8_t *answer,
                             size_t length, uint8_t *blocks,
                             size_t blocks_room, uint8_t *locks,
                             size_t locks_room);

#endif

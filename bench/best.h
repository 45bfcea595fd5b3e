/* The decoder, and the coil's coder and decoder, in the best plain C that we
 * know, with the answers of espenknoten.h: the second peer that the benchmark
 * measures the library against. */
#ifndef BEST_H
#define BEST_H

#include <stddef.h>
#include <stdint.h>

int64_t best_decode(const uint8_t *track, size_t length, uint8_t *frame,
                    size_t room);

int64_t best_coil_code(const uint8_t *answer, size_t length, uint8_t *track,
                       size_t room);

int64_t best_coil_decode(const uint8_t *track, size_t length, uint8_t *answer,
                         size_t room);

#endif

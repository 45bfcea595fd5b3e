/* The walk in plain C, with the record and the answers of espenknoten.h: what
 * the benchmark measures the library's against. */
#ifndef PLAIN_WALK_H
#define PLAIN_WALK_H

#include <stddef.h>
#include <stdint.h>

#include "espenknoten.h"

void plain_walk_start(struct ek_walk *walk, uint16_t family);

int64_t plain_walk_hear_silence(struct ek_walk *walk, uint64_t *list,
                                size_t places);

int64_t plain_walk_hear_clash(struct ek_walk *walk, uint64_t *list,
                              size_t places);

int64_t plain_walk_hear_bytes(struct ek_walk *walk, const uint8_t *bytes,
                              size_t length, uint64_t *list, size_t places);

int64_t plain_walk_ask(const struct ek_walk *walk, uint8_t *room,
                       size_t length);

/* Over a list that two racks share. */
int64_t plain_shared_start(struct ek_walk *walk, uint32_t rack,
                           uint16_t family, uint8_t *owners, size_t marks);

int64_t plain_shared_hear_silence(struct ek_walk *walk, uint32_t rack,
                                  uint64_t *rows, size_t places,
                                  uint8_t *owners, size_t marks);

int64_t plain_shared_hear_clash(struct ek_walk *walk, uint32_t rack,
                                uint64_t *rows, size_t places, uint8_t *owners,
                                size_t marks);

int64_t plain_shared_hear_bytes(struct ek_walk *walk, uint32_t rack,
                                const uint8_t *bytes, size_t length,
                                uint64_t *rows, size_t places, uint8_t *owners,
                                size_t marks);

/* The hearing of an unshared list in another form: no record is passed by
 * value. */
int64_t direct_walk_hear_silence(struct ek_walk *walk, uint64_t *list,
                                 size_t places);

int64_t direct_walk_hear_clash(struct ek_walk *walk, uint64_t *list,
                               size_t places);

int64_t direct_walk_hear_bytes(struct ek_walk *walk, const uint8_t *bytes,
                               size_t length, uint64_t *list, size_t places);

#endif

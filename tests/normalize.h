/*
 * zuvaropy_normalize with a look at every byte: the result buffer lies in a
 * larger area that is filled beforehand, and only the bytes of the table may
 * change in it.
 */

#ifndef NORMALIZE_H
#define NORMALIZE_H

#include "picture.h"

/* Result buffers up to this length can be asked for. */
#define NORMALIZE_ROOM (ZUVAROPY_MAX_PICTURE_BYTES + 100)

/* Lends `room` bytes, all `fill`. The word must be `wanted`, and where it is
 * an answer the result must begin with that many bytes of `table`. */
void normalize_check(const struct picture *p, size_t room, unsigned int fill, uint64_t wanted, const uint8_t *table,
                     unsigned long at);

/* The same with several fills and a buffer that is just long enough. */
void normalize_check_fills(const struct picture *p, uint64_t wanted, const uint8_t *table, unsigned long at);

/* The same with one fill. The word and the table must be those of the reference
 * under the definitions that the calls are made under. Returns the word. */
uint64_t normalize_any(const struct picture *p, unsigned long at);

/* Half of a work space must be the normal table as the call writes it, and zeros. */
void normalize_check_half(const uint8_t *half, const struct picture *p);

/* Fills that no wrong byte is the same as every one of. */
extern const uint8_t normalize_fills[3];

#endif

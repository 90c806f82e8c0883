/*
 * A buffer to lend for writing, in the middle of a larger area, and beside it
 * an area like it for what the call should leave. Both hold the same
 * beforehand; they do afterwards if the call wrote what it should, and nothing
 * else.
 */

#ifndef AREA_H
#define AREA_H

#include "zuvaropy.h"

#define AREA_MARGIN 64
#define AREA_ROOM (ZUVAROPY_MAX_EVIDENCE_BYTES + 100)

struct area {
    size_t room; /* of the buffer in its middle */
    uint8_t bytes[AREA_MARGIN + AREA_ROOM + AREA_MARGIN];
    uint8_t wanted[AREA_MARGIN + AREA_ROOM + AREA_MARGIN];
};

/* So many bytes, and the margins, all `fill`; or bytes at random, and at times
 * those that the call before has left. */
void area_fill(struct area *a, size_t room, unsigned int fill);
void area_fill_any(struct area *a, size_t room);

/* The buffer, and what it should hold. */
uint8_t *area_lent(struct area *a);
uint8_t *area_wanted(struct area *a);

/* Is the area, margins and all, as it should be? */
int area_is_as_wanted(const struct area *a);

/* Are so many bytes all `fill`? */
int area_is_filled(const uint8_t *bytes, size_t length, unsigned int fill);

#endif

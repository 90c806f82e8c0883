/*
 * Memory between two pages that may not be touched. A byte read or written
 * before its first or behind its last ends the program by a signal.
 */

#ifndef PAGES_H
#define PAGES_H

#include <stddef.h>
#include <stdint.h>

struct pages {
    uint8_t *first;
    size_t length; /* a number of whole pages */
};

/* Room for at least so many bytes. These stop the program if they fail. */
void pages_map(struct pages *pages, size_t room);
void pages_allow_writing(const struct pages *pages);
void pages_forbid_writing(const struct pages *pages);

/* Where something of this length begins that ends with the last byte. */
uint8_t *pages_last(const struct pages *pages, size_t length);

/* Puts bytes, or PAGES_FILL where there are none to put, so that they begin with
 * the first byte or end with the last; where they begin. Writing is allowed then. */
#define PAGES_FILL 0xA5
uint8_t *pages_place(const struct pages *pages, const uint8_t *bytes, size_t length, int last);

#endif

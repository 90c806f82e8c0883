/*
 * Buffers to lend to a call, each in memory of its own. One for reading has
 * exactly the length of the file: it ends before a page that may not be touched,
 * and may not be written; or it is from malloc, so that a tool that watches the
 * heap sees what is read beside it. One for writing holds a pattern beforehand,
 * and lies between two margins or ends with its memory. The fuzz input chooses.
 */

#ifndef LENT_H
#define LENT_H

#include "feed.h"

#include <stdbool.h>

struct lent {
    uint8_t *bytes; /* NULL if there are none to read */
    size_t length;
    size_t margin;
    uint8_t *memory, *before;
    bool in_pages;
};

/* Choices of a buffer's length: exactly the one needed, and one byte less. */
#define LENT_EXACT 0x00
#define LENT_SHORT 0xE0

/* From here on buffers for reading are in pages, or from malloc. There are at
 * most LENT_FILES until the next begin. */
#define LENT_FILES 4
void lent_begin(bool in_pages);

/* A buffer for reading, with these bytes. */
void lent_file(struct lent *lent, const uint8_t *bytes, size_t length);

/* A buffer for writing: its length, the one needed, more or at times less, and
 * what it holds are chosen by two bytes. */
void lent_writable(struct lent *lent, struct feed *feed, size_t needed);

/* Is all as it was, but for so many bytes from the first on? */
bool lent_is_kept(const struct lent *lent, size_t written);

void lent_return(struct lent *lent);

#endif

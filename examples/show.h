/* What the examples share, beside zuvaropy_parts.h: reading files, and printing rows, individuals and refusals. */

#ifndef SHOW_H
#define SHOW_H

#include "zuvaropy_parts.h"

/* One byte more than the longest picture, evidence or book of pictures, of either kind, so that a longer file is seen
 * to be longer. A longer book is refused as cut off (24, 25), where the whole of it could be refused for a picture. */
#define SHOW_PICTURE_ROOM (ZUVAROPY_MAX_PICTURE_BYTES + 1)
#define SHOW_EVIDENCE_ROOM (ZUVAROPY_MAX_EVIDENCE_BYTES + 1)
#define SHOW_BOOK_ROOM (ZUVAROPY_MAX_BOOK_BYTES + 1)
#define SHOW_DEFINITIONS_ROOM (ZUVAROPY_MAX_DEFINITIONS_BYTES + 1)

/* Reads the first `room` bytes of a file. 0, or -1 with a message if it cannot be read. */
int show_read(const char *name, uint8_t *bytes, size_t room, size_t *length);

/* The same for a definitions book, which is one without definitions where the name is NULL. */
int show_read_definitions(const char *name, uint8_t *bytes, size_t room, size_t *length);

/* If the word is a refusal: nonzero, and a line that says which question refused which input and where, such as
 * "refused 11, card 4, row 3, byte 72: is the parent below the row's number?". */
int show_refused(uint64_t word);

/* "a map of 3 rows", and so on. */
void show_count(const char *what, unsigned int count, const char *of);

/* The line of a row of a table, such as "row 1: some 8 below row 0; wanted 3 5"; those of all, indented. */
void show_row(const uint8_t *table, size_t length, unsigned int row);
void show_rows(const uint8_t *table, size_t length);

/* Those of the individuals of a refutation, such as "individual 1: by role 8 from individual 0; has 3". */
void show_individuals(const uint8_t *refutation, size_t length);

/* "a map of N rows" or "a refutation of N individuals". */
void show_evidence(const uint8_t *evidence, size_t length);

#endif

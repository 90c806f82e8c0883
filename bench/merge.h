/* The normal table of a picture as a C programmer would write it for speed. */

#ifndef MERGE_H
#define MERGE_H

#include <stddef.h>
#include <stdint.h>

/* The same answer word and the same bytes as zuvaropy_normalize. */
uint64_t merge_normalize(const uint8_t *picture, size_t picture_len, uint8_t *result, size_t result_len);

/* Only the table of a picture of so many rows: its length in bytes, or 0 with nothing written if the merged table is
 * too large. */
size_t merge_table(const uint8_t *picture, unsigned int rows, uint8_t *result);

#endif

/*
 * A second writer of normal tables to compare the library with. It builds the
 * merged table row by row as it is defined, each row with the set of rows of
 * the picture it stands for, with no regard to speed.
 */

#ifndef NORMAL_REFERENCE_H
#define NORMAL_REFERENCE_H

#include "zuvaropy.h"

struct normal_reference {
    unsigned int question; /* of 2 to 14 the first whose answer is no; 0 if there is none */
    uint64_t word;         /* that of zuvaropy_normalize with a buffer that is long enough */
    unsigned int merged;   /* rows of the merged table; the count stops at one too many */
    size_t length;         /* of the normal table, in bytes */
    uint8_t bytes[ZUVAROPY_MAX_PICTURE_BYTES];
};

/* Without definitions; and under those that the calls are made under, where the
 * question may also be one of 25 to 30, and the word name a definition. */
void normal_reference(struct normal_reference *result, const uint8_t *file, size_t length);
void normal_reference_under(struct normal_reference *result, const uint8_t *file, size_t length);

#endif

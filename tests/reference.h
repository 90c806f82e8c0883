/*
 * A second reader of pictures to compare the library with. It is the list of
 * questions written down as it stands, one function for each, with no regard
 * to speed.
 */

#ifndef REFERENCE_H
#define REFERENCE_H

#include <stddef.h>
#include <stdint.h>

struct reference {
    unsigned int question; /* the first one whose answer is no; 0 if there is none */
    unsigned int rows;     /* rows before the field that was refused, or in all */
    size_t byte;           /* where that field begins, or the end field */
};

struct reference reference_read(const uint8_t *file, size_t length);

/* The word of zuvaropy_validate; and what a refusal has in it of row and byte, 0 if there is none. */
uint64_t reference_word(const struct reference *read);
uint64_t reference_place(const struct reference *read);

#endif

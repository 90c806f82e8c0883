/*
 * A second reader of definitions and a second unfolder to compare the library
 * with: the questions as they stand, and rows that take definitions in one after
 * the other, in the order of their numbers, with no regard to speed.
 */

#ifndef DEFINITIONS_REFERENCE_H
#define DEFINITIONS_REFERENCE_H

#include "calls.h"
#include "picture.h"

/* A picture that is given beside the definitions, and what a refusal says of it. */
struct given {
    const uint8_t *bytes;
    size_t length;
    unsigned int input, card;
};

/* The word of the refusal by 25 to 30, or by 2 to 13 of a definition; 0 if there
 * is none. The pictures are readable. */
uint64_t reference_definitions(struct definitions book, const struct given *pictures, unsigned int count);

/* The same for the one picture of a call, and for its two. */
uint64_t reference_definitions_one(const uint8_t *picture, size_t length);
uint64_t reference_definitions_two(const uint8_t *first, size_t first_len, const uint8_t *second, size_t second_len);

/* A picture unfolded under the definitions that the calls are made under. None of
 * 25 to 30 refuses them. */
void reference_unfold(struct picture *unfolded, const uint8_t *picture, size_t length);

#endif

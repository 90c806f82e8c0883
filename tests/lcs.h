/*
 * zuvaropy_lcs with a look at every byte: both buffers lie in larger areas that
 * are filled beforehand, and afterwards the whole areas must be as the reference
 * leaves areas like them.
 */

#ifndef LCS_H
#define LCS_H

#include "verify.h"

/* Buffers up to these lengths can be asked for. */
#define LCS_WORK_ROOM (ZUVAROPY_WORK_BYTES + 100)
#define LCS_RESULT_ROOM (ZUVAROPY_MAX_PICTURE_BYTES + 100)

struct pair {
    struct picture first, second;
    struct picture common; /* what was written; empty after a refusal */
};

/* The call with so many bytes of work space and of result buffer, all `fill`.
 * The pictures must stay as they were, and zuvaropy_validate must take the
 * common picture. Returns the word, which must be that of the reference. */
uint64_t lcs_room(struct pair *pair, size_t work, size_t result, unsigned int fill, unsigned long at);

/* The same with buffers that are just long enough and hold anything. */
uint64_t lcs_any(struct pair *pair, unsigned long at);

/* The same with several fills; the word must be `wanted`. */
void lcs_check(struct pair *pair, uint64_t wanted, unsigned long at);

/* A common picture of so many rows; refused by 15 if there are too many. */
void lcs_check_rows(struct pair *pair, unsigned int rows, unsigned long at);

/* The outcome of zuvaropy_subsumes: does the second picture subsume the first? */
unsigned int lcs_subsumes(const struct picture *first, const struct picture *second);

/* The common picture of a pair, after the call, must subsume both, unless its
 * merged table is too large. True if it was not. */
int lcs_check_subsumes(const struct pair *pair);

/* Two pictures must subsume each other, unless one's merged table is too large. */
void lcs_check_equivalent(const struct picture *first, const struct picture *second);

/* Pictures that the call answers with a word, by a number below LCS_WORDS: 2 to
 * 14 of each, 15, and a common picture of two rows. Returns the word. */
#define LCS_WORDS (PICTURE_WORDS + 2)
uint64_t lcs_make(struct pair *pair, unsigned int n);

#endif

/*
 * What the calls on two pictures share: their inputs, the refusal that the
 * pictures lead to, and the normal tables in the work space.
 */

#ifndef FUZZ_PAIR_H
#define FUZZ_PAIR_H

#include "fuzz.h"

/* Questions 2 to 14 and 25 to 30 of both pictures. */
#define PAIR_REFUSABLE                                                                                                 \
    {ZUVAROPY_QUESTION_BUFFER, ZUVAROPY_QUESTION_BUFFER, ZUVAROPY_INPUT_BUFFER},                                       \
        {ZUVAROPY_QUESTION_HEAD, ZUVAROPY_QUESTION_MERGED, ZUVAROPY_INPUT_FIRST},                                      \
        {ZUVAROPY_QUESTION_HEAD, ZUVAROPY_QUESTION_MERGED, ZUVAROPY_INPUT_SECOND}, DEFINITIONS_REFUSABLE,              \
        UNDER_REFUSABLE(ZUVAROPY_INPUT_FIRST), UNDER_REFUSABLE(ZUVAROPY_INPUT_SECOND)

/* A call's buffers. */
struct buffers {
    struct lent first, second, definitions, work, result;
};

/* Takes two pictures, definitions and the buffers; without a result buffer if none is needed. */
void pair_lend(struct feed *feed, struct picture *first, struct picture *second, struct buffers *lent,
               size_t result_needed);

/* The word by question 1 to 14, as the calls on one picture say it, or by 1 to 14
 * and 25 to 30 as the reference says it, if there are definitions; 0 if there is none. */
uint64_t pair_refusal(const struct picture *first, const struct picture *second, const struct buffers *lent,
                      size_t result_needed);

/* Nothing was written. */
void pair_check_kept(const struct buffers *lent);

/* The work space holds both normal tables and zeros, and the rest of it is as it
 * was; so are the pictures. */
void pair_check_work(const struct picture *first, const struct picture *second, const struct buffers *lent);

void pair_return(struct buffers *lent);

#endif

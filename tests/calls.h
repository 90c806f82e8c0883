/*
 * The library as the tests call it: one function for each call, with the
 * arguments that are the call's own. What every call takes besides, the book of
 * definitions, is that of calls_under; at first there are none. So one more
 * argument of every call is added here, and in no test. The header is called by
 * itself only in the tests of what it does by itself.
 */

#ifndef CALLS_H
#define CALLS_H

#include "zuvaropy.h"

struct definitions {
    const uint8_t *bytes;
    size_t length;
};

/* From now on the calls are made under these definitions; or under none. */
void calls_under(const uint8_t *bytes, size_t length);
void calls_under_none(void);

/* The definitions that the calls are made under; and none, as they are at first. */
struct definitions calls_definitions(void);
struct definitions calls_none(void);

/* Are they other bytes than none? */
int calls_are_under(void);

uint64_t call_validate(const uint8_t *picture, size_t picture_len);
uint64_t call_normalize(const uint8_t *picture, size_t picture_len, uint8_t *result, size_t result_len);
uint64_t call_subsumes(const uint8_t *first, size_t first_len, const uint8_t *second, size_t second_len, uint8_t *work,
                       size_t work_len, uint8_t *result, size_t result_len);
uint64_t call_lcs(const uint8_t *first, size_t first_len, const uint8_t *second, size_t second_len, uint8_t *work,
                  size_t work_len, uint8_t *result, size_t result_len);
uint64_t call_verify(const uint8_t *first, size_t first_len, const uint8_t *second, size_t second_len,
                     const uint8_t *evidence, size_t evidence_len, uint8_t *work, size_t work_len);
uint64_t call_most_specific(const uint8_t *case_picture, size_t case_picture_len, const uint8_t *book, size_t book_len,
                            uint8_t *work, size_t work_len);

#endif

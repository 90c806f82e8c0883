/*
 * A second checker of evidence to compare the library with: the questions as
 * they stand, with no regard to speed. Whether an individual is an instance is
 * found by the rows of the pictures themselves, unfolded, not by their normal
 * tables. The definitions are those that the calls are made under.
 */

#ifndef VERIFY_REFERENCE_H
#define VERIFY_REFERENCE_H

#include "zuvaropy.h"

/* The word that zuvaropy_verify must give, and all that it must write. */
uint64_t reference_verify(const uint8_t *first, size_t first_len, const uint8_t *second, size_t second_len,
                          const uint8_t *evidence, size_t evidence_len, uint8_t *work, size_t work_len);

#endif

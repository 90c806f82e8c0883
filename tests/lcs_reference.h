/*
 * A second maker of common pictures to compare the library with. It builds the
 * whole product of the two normal tables as it is defined, drops from the leaves
 * up, and counts and writes what is left, with no regard to speed or room.
 */

#ifndef LCS_REFERENCE_H
#define LCS_REFERENCE_H

#include "zuvaropy.h"

/* The word that zuvaropy_lcs must give, and all that it must write. */
uint64_t reference_lcs(const uint8_t *first, size_t first_len, const uint8_t *second, size_t second_len, uint8_t *work,
                       size_t work_len, uint8_t *result, size_t result_len);

/* The rows of the last product that was built, before and after dropping. */
unsigned int reference_lcs_paired(void);
unsigned int reference_lcs_kept(void);

#endif

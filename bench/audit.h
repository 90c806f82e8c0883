/* The check of evidence as a C programmer would write it for speed. */

#ifndef AUDIT_H
#define AUDIT_H

#include <stddef.h>
#include <stdint.h>

/* The same answer word and the same bytes as zuvaropy_verify. */
uint64_t audit_verify(const uint8_t *first, size_t first_len, const uint8_t *second, size_t second_len,
                      const uint8_t *evidence, size_t evidence_len, uint8_t *work, size_t work_len);

#endif

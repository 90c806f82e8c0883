/* The questions of zuvaropy_validate as a C programmer would write them. */

#ifndef SCAN_H
#define SCAN_H

#include <stddef.h>
#include <stdint.h>

/* The same answer word as zuvaropy_validate. */
uint64_t scan_validate(const uint8_t *picture, size_t length);

#endif

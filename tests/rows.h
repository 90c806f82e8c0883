/*
 * Rows as values: written down in a test and made a picture, or read from one.
 */

#ifndef ROWS_H
#define ROWS_H

#include "picture.h"

struct row {
    unsigned int parent, kind, role, impossible;
    uint64_t wanted, excluded;
};

#define NAME(n) (UINT64_C(1) << (n))

/* Rows by kind, with their wanted and excluded names; _NONE: impossible. */
#define ROOT(wanted, excluded) {0, ZUVAROPY_KIND_ROOT, 0, 0, wanted, excluded}
#define SOME(parent, role, wanted, excluded) {parent, ZUVAROPY_KIND_EXISTS, role, 0, wanted, excluded}
#define ALL(parent, role, wanted, excluded) {parent, ZUVAROPY_KIND_FORALL, role, 0, wanted, excluded}
#define ROOT_NONE {0, ZUVAROPY_KIND_ROOT, 0, 1, 0, 0}
#define SOME_NONE(parent, role) {parent, ZUVAROPY_KIND_EXISTS, role, 1, 0, 0}
#define ALL_NONE(parent, role) {parent, ZUVAROPY_KIND_FORALL, role, 1, 0, 0}

/* Rows and their number: two arguments, or what a struct row_list is made of. */
#define ROWS(...) (const struct row[]){__VA_ARGS__}, sizeof((const struct row[]){__VA_ARGS__}) / sizeof(struct row)

struct row_list {
    const struct row *rows;
    size_t count;
};

/* The picture that has these rows, with its end field. */
void rows_picture(struct picture *p, const struct row *rows, size_t count);
void row_list_picture(struct picture *p, const struct row_list *list);

/* The first rows of a file that has so many whole ones. */
void rows_read(struct row *rows, const uint8_t *file, unsigned int count);

/* The number that so many bytes are. */
uint64_t rows_number(const uint8_t *bytes, unsigned int count);

#endif

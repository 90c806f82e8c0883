/*
 * Pictures for the tests: built row by row, damaged on purpose, and validated
 * with a look at whether the input stayed as it was. The answer words.
 */

#ifndef PICTURE_H
#define PICTURE_H

#include "zuvaropy.h"

/* Room for a few rows more than a picture may have. */
#define PICTURE_ROOM ZUVAROPY_PICTURE_BYTES(ZUVAROPY_MAX_ROWS + 16)

struct picture {
    size_t length;
    uint8_t bytes[PICTURE_ROOM];
};

void picture_clear(struct picture *p);
void picture_byte(struct picture *p, unsigned int byte);
void picture_row(struct picture *p, unsigned int parent, unsigned int kind, unsigned int role);
void picture_end(struct picture *p);

/* The names and the impossible byte of the last row; a new one has none of them. */
void picture_label(struct picture *p, uint64_t wanted, uint64_t excluded, unsigned int impossible);

/* A root and its successors; a chain of so many edges; one of which bit n of
 * `all` says that the edge to row n + 1 is of kind all, by role 0; and an all with
 * so many some below it and so many beside, which has 1 + (1 + inner) * (1 + outer)
 * rows when merged. None has an end field yet, so that rows can follow. */
void picture_fan(struct picture *p, unsigned int rows);
void picture_chain(struct picture *p, unsigned int edges);
void picture_kinds(struct picture *p, unsigned int edges, unsigned int all);
void picture_spread(struct picture *p, unsigned int inner, unsigned int outer);

/* A whole good picture: a chain as deep as it may be, then successors of
 * rows all over it, with every kind, role and name. */
void picture_mixed(struct picture *p, unsigned int rows);

/* The whole rows of a file; a row's field, from its tag, and the row's value. */
unsigned int picture_rows(const struct picture *p);
uint8_t *picture_field(struct picture *p, unsigned int row);
uint8_t *picture_value(struct picture *p, unsigned int row);

/* Damages a row other than row 0 so that this question refuses it: 3, 4, or 9
 * to 13. For 12 the picture must begin with a chain as deep as it may be. */
void picture_damage(struct picture *p, unsigned int row, unsigned int question);

/* A whole picture that this question refuses, of 2 to 14; for 0, one that none
 * refuses. And the row at which it is refused; 0 for 14, which says none. */
void picture_refused(struct picture *p, unsigned int question);
unsigned int picture_refused_row(unsigned int question);

/* The call, with a check that it left the input as it was. */
uint64_t picture_validate(const struct picture *p);

/* The answer words: a number of rows, the length of so many rows in bytes, a
 * refusal of the first input at a row, that of the picture of picture_refused,
 * which is 0 where none refuses it, and one of a buffer. A question that says no
 * row has row 0. */
uint64_t word_rows(unsigned int rows);
uint64_t word_length(unsigned int rows);
uint64_t word_refusal(unsigned int question, unsigned int row);
uint64_t word_refused(unsigned int question);
uint64_t word_short(void);

/* What a refusal at a row has in its word besides: the row, and the byte where its field begins. */
uint64_t word_place(unsigned int row);

#endif

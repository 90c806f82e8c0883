/*
 * Numbers at random, and pictures made and damaged at random. The seed is
 * fixed: every run of a test program makes the same ones.
 */

#ifndef RANDOM_H
#define RANDOM_H

#include "picture.h"

uint64_t random_next(void);
unsigned int random_below(unsigned int limit);

/* What the rows of a picture are drawn from. */
struct shape {
    unsigned int rows, roles;
    unsigned int depth;      /* edges from the root, at most */
    unsigned int all;        /* of 8 successors so many are of kind all */
    unsigned int deep;       /* of 8 rows so many hang from the row before */
    unsigned int names;      /* names in use */
    unsigned int named;      /* of 8 rows so many have one of them wanted, and as many excluded */
    unsigned int impossible; /* of 64 rows so many are */
};

/* Mostly small, at times as large as allowed and a little larger. */
struct shape random_shape(void);
void random_picture(struct picture *p, const struct shape *s);

/* One change to a file that is not empty. */
void random_damage(struct picture *p);

/* Two pictures: the second is the first with a few changes, or one of its own.
 * A few are damaged. */
void random_pair(struct picture *first, struct picture *second, const struct shape *s);

/* One change to a row that leaves it a good one, but that the last row is taken
 * away at times. */
void random_change(struct picture *p, const struct shape *s);

/* The same in other words, if a row more is allowed: a value restriction that says
 * nothing; or a row again, without what is below it, so that of a value
 * restriction the excluded names are in that row only. */
void random_reword(struct picture *p);

#endif

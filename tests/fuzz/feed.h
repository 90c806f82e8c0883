/*
 * A fuzz input taken apart: each byte of it chooses something, and what is past
 * its last byte is 0. So any bytes are some inputs of a call, and most are good
 * ones; bytes of a file can stand in it as they are.
 */

#ifndef FEED_H
#define FEED_H

#include "book.h"
#include "evidence.h"

struct feed {
    const uint8_t *at;
    size_t left;
};

unsigned int feed_byte(struct feed *feed);
unsigned int feed_number(struct feed *feed); /* of two bytes */

/* The first byte of a file's part says how the file is made, by its rest when
 * divided by FEED_FORMS: FEED_RAW, and the bytes follow, after their number in
 * two bytes; else from choices, of a picture from FEED_ROWS, FEED_LIKE or
 * FEED_SHAPE on. From FEED_DAMAGED on the file is also damaged. */
#define FEED_RAW 0
#define FEED_ROWS 1
#define FEED_LIKE 3
#define FEED_SHAPE 7
#define FEED_FORMS 8
#define FEED_DAMAGED 0xF0

/* The shape of FEED_SHAPE that picture_refused makes: the question follows,
 * less ZUVAROPY_QUESTION_HEAD. */
#define FEED_REFUSED 0

/* A picture; FEED_LIKE makes it from the other one, if that is a good one. */
void feed_picture(struct feed *feed, struct picture *p, const struct picture *other);

/* Evidence for the pictures that are there: a map, individuals, or what the
 * library writes for them in the other order or, from FEED_WRITTEN on, in this. */
#define FEED_WRITTEN 5
void feed_evidence(struct feed *feed, struct inputs *in);

/* A book for the case that is there. */
void feed_book(struct feed *feed, struct lookup *l);

/* Definitions. The first byte of their part is FEED_NONE where there are none, so
 * that there are none after the last choice. */
#define FEED_NONE 0
#define FEED_RAW_DEFINITIONS FEED_FORMS
void feed_definitions(struct feed *feed, struct book *b);

#endif

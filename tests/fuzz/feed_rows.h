/*
 * Pictures made from the choices of a fuzz input: all are good ones, but for
 * shapes one row or one edge beyond what is allowed.
 */

#ifndef FEED_ROWS_H
#define FEED_ROWS_H

#include "feed.h"

/* Rows, each from a few bytes. */
void feed_rows(struct feed *feed, struct picture *p);

/* The other picture with a few changes; rows, if that is not a good one. It may
 * be the same. */
void feed_like(struct feed *feed, struct picture *p, const struct picture *other);

/* A large or deep picture from two bytes. */
void feed_shape(struct feed *feed, struct picture *p);

#endif

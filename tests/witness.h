/*
 * A maker of good evidence: for any two pictures the map with the lowest
 * images or, if there is no map, a refutation.
 */

#ifndef WITNESS_H
#define WITNESS_H

#include "evidence.h"

#include <stdbool.h>

/* For the pictures of the inputs, which must have normal tables under the
 * definitions that the calls are made under. True if it is a map. */
bool witness_make(struct inputs *in);

#endif

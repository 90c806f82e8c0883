/*
 * A second finder of the most specific cards to compare the library with. It
 * asks the questions as they stand, and finds the cards as they are defined,
 * from the verdicts of zuvaropy_subsumes on each pair of a book, both ways, after
 * unfolding. The definitions are those that the calls are made under.
 */

#ifndef MOST_SPECIFIC_REFERENCE_H
#define MOST_SPECIFIC_REFERENCE_H

#include "book.h"

#include <stdbool.h>

/* The word that zuvaropy_most_specific must give with a work space that is long enough. */
uint64_t reference_most_specific(const struct lookup *l);

/* Of the book looked up last, if there was a word of cards: the set of those that
 * subsume the case, and whether card n subsumes card m. */
uint32_t reference_most_specific_subsuming(void);
bool reference_most_specific_subsumes(unsigned int n, unsigned int m);

#endif

/*
 * zuvaropy_most_specific with a look at every byte: the work space lies in a
 * larger area that is filled beforehand. Afterwards it must be zero, its first
 * ZUVAROPY_WORK_BYTES, or after a refusal the same as before; and so must the
 * rest of the area.
 */

#ifndef MOST_SPECIFIC_H
#define MOST_SPECIFIC_H

#include "book.h"

/* Work spaces up to this length can be asked for. */
#define MOST_SPECIFIC_ROOM (ZUVAROPY_WORK_BYTES + 100)

/* The call with `room` bytes of work space, all `fill`. The word must be
 * `wanted`, and the inputs must stay as they were. */
void most_specific_room(const struct lookup *l, size_t room, unsigned int fill, uint64_t wanted, unsigned long at);

/* The same with a work space that is just long enough and holds anything. The
 * word must be that of the reference, which it returns. */
uint64_t most_specific_any(const struct lookup *l, unsigned long at);

/* The same with several fills; the word must be `wanted`. */
void most_specific_check(const struct lookup *l, uint64_t wanted, unsigned long at);

/* The answer words: a set of cards, and refusals of the book, of a card at a row
 * of its picture, and of a card that is the picture of picture_refused. Those of
 * the case, which is the first input, and of a buffer are in picture.h. */
uint64_t word_cards(uint32_t cards);
uint64_t word_book(void);
uint64_t word_card(unsigned int card, unsigned int question, unsigned int row);
uint64_t word_card_refused(unsigned int card, unsigned int question);

/* Inputs that the call answers with a word, by a number below LOOKUP_WORDS: 2 to
 * 14 of the case, 24, 2 to 14 of card 0 and of card 3, which is the last one,
 * and a set of two cards. Returns the word. */
#define LOOKUP_WORDS (13 + 1 + 2 * 13 + 1)
uint64_t lookup_make(struct lookup *l, unsigned int n);

#endif

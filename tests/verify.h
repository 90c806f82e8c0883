/*
 * zuvaropy_verify with a look at every byte: the work space lies in a larger
 * area that is filled beforehand, and afterwards the whole area must be as the
 * reference leaves one like it.
 */

#ifndef VERIFY_H
#define VERIFY_H

#include "evidence.h"

/* Work spaces up to this length can be asked for. */
#define VERIFY_ROOM (ZUVAROPY_WORK_BYTES + 100)

/* The call with `room` bytes of work space, all `fill`. The inputs must stay as
 * they were. Returns the word, which must be that of the reference. */
uint64_t verify_room(const struct inputs *in, size_t room, unsigned int fill, unsigned long at);

/* The same with a work space that is just long enough and holds anything. */
uint64_t verify_any(const struct inputs *in, unsigned long at);

/* The same with several fills; the word must be `wanted`. */
void verify_check(const struct inputs *in, uint64_t wanted, unsigned long at);

/* The answer words: evidence that was taken, and refusals of the second input,
 * at a row, and of the evidence. Those of the first and of a buffer are in
 * picture.h. */
uint64_t word_map_taken(void);
uint64_t word_refutation_taken(void);
uint64_t word_second(unsigned int question, unsigned int row);
uint64_t word_evidence(unsigned int question);

/* Each word but that of a short work space, by a number below WORDS: 2 to 14 of
 * both pictures, which are PICTURE_WORDS, 16 to 23, and evidence that was taken. */
#define PICTURE_WORDS (13 + 13)
#define WORDS (PICTURE_WORDS + 8 + 2)
uint64_t word_number(unsigned int n);

/* The refusal of two pictures, from those of each by itself as the first input:
 * 2 to 13 of the first, 2 to 13 of the second, 14 of the first, 14 of the second.
 * 0 for a picture that is not refused, and for the word if there is no refusal. */
uint64_t word_of_pictures(uint64_t first, uint64_t second);

/* Is the work space written where this is the word? */
int word_writes(uint64_t word);

/* Inputs that the call answers with this word. */
void verify_make(struct inputs *in, uint64_t word);

#endif

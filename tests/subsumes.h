/*
 * zuvaropy_subsumes with a look at every byte: both buffers lie in larger areas
 * that are filled beforehand. Afterwards the areas must be as they should: the
 * normal tables in the work space, and in the result buffer the lowest map, or a
 * refutation. That may be any; it must be one that the reference takes.
 */

#ifndef SUBSUMES_H
#define SUBSUMES_H

#include "evidence.h"

/* Buffers up to these lengths can be asked for. */
#define SUBSUMES_WORK_ROOM (ZUVAROPY_WORK_BYTES + 100)
#define SUBSUMES_RESULT_ROOM (ZUVAROPY_MAX_EVIDENCE_BYTES + 100)

/* The call with so many bytes of work space and of result buffer, all `fill`.
 * The pictures must stay as they were, and zuvaropy_verify must take the
 * evidence. It becomes the evidence of the inputs, which is empty after a
 * refusal. Returns the word, which must be the right one. */
uint64_t subsumes_room(struct inputs *in, size_t work, size_t result, unsigned int fill, unsigned long at);

/* The same with buffers that are just long enough and hold anything. */
uint64_t subsumes_any(struct inputs *in, unsigned long at);

/* The same with several fills; the word must be `wanted`, but for the length of
 * a refutation. */
void subsumes_check(struct inputs *in, uint64_t wanted, unsigned long at);

/* The answer words: yes, for a second normal table of so many rows, and no,
 * without the length of the refutation. Those of refusals are in picture.h and
 * verify.h. */
uint64_t word_yes(unsigned int rows);
uint64_t word_no(void);

/* The word, without its length if it is no. */
uint64_t word_verdict(uint64_t word);

#endif

/*
 * Books of definitions, and each call that takes one, with a look at every byte.
 */

#ifndef UNDER_H
#define UNDER_H

#include "book.h"
#include "evidence.h"
#include "random.h"

/* The field of a definition. */
void book_definition(struct book *b, unsigned int name, const struct picture *picture);

/* The inputs of all calls: the first picture is also the only one and the case. */
struct under {
    struct book definitions;
    struct picture first, second;
    struct evidence evidence;
    struct book book;
};

enum { UNDER_NORMALIZE, UNDER_SUBSUMES, UNDER_LCS, UNDER_VERIFY, UNDER_MOST_SPECIFIC, UNDER_CALLS };

/* The call under the definitions, with buffers that hold anything. The definitions
 * must stay as they were, and word and buffers must be those of the reference.
 * Returns the word. Afterwards calls are made under no definitions. */
uint64_t under_call(struct under *u, unsigned int call, unsigned long at);

/* The same with the definitions as they stand at another place. */
uint64_t under_call_at(struct under *u, const uint8_t *definitions, unsigned int call, unsigned long at);

/* All calls; each word must be `wanted`. */
void under_check_all(struct under *u, uint64_t wanted, unsigned long at);

/* Normal tables: that of the first must be that of the second, under the definitions. */
void under_check_table(struct under *u, const struct picture *table, unsigned long at);

/* The answer words: refusals of the book of definitions, and of a definition at a
 * row of its picture. */
uint64_t word_definitions(unsigned int question);
uint64_t word_definition(unsigned int number, unsigned int question, unsigned int row);

/* Inputs that a call refuses because of definitions, by a number below UNDER_WORDS:
 * 25, 26, 28, 2 to 13 of the last definition, and 27, 29 and 30 of the first
 * picture, of the second, which is also card 1, and of that definition. Returns
 * the word; that of a call on one picture or of a lookup is another where the
 * second is refused. */
#define UNDER_WORDS (3 + 12 + 9)
uint64_t under_make(struct under *u, unsigned int n);

/* Names that are defined, as many as there are; those of a random book. */
struct defined {
    unsigned int count;
    unsigned int names[ZUVAROPY_MAX_DEFINITIONS];
    uint64_t set;
};

/* Definitions at random, most without rings. */
void random_definitions(struct book *b, struct defined *defined, const struct shape *s);

/* Makes the rows of a picture want some of the names, so many of 8 rows, and mostly exclude none of them. */
void random_mention(struct picture *p, const struct defined *defined, unsigned int often);

#endif

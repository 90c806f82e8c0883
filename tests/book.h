/*
 * Books for the tests, built field by field. The two inputs of the call that
 * looks a case up in a book.
 */

#ifndef BOOK_H
#define BOOK_H

#include "picture.h"

/* The longest value of a field, and room for a card more than a book may have. */
#define BOOK_VALUE_BYTES 65535
#define BOOK_ROOM ((ZUVAROPY_MAX_CARDS + 1) * ZUVAROPY_CARD_BYTES(BOOK_VALUE_BYTES) + 100)

struct book {
    size_t length;
    uint8_t bytes[BOOK_ROOM];
};

struct lookup {
    struct picture case_picture;
    struct book book;
};

void book_clear(struct book *b);
void book_byte(struct book *b, unsigned int byte);
void book_head(struct book *b, unsigned int tag, unsigned int length);
void book_end(struct book *b);

/* The field of a card. */
void book_card(struct book *b, const struct picture *card);

/* A book of so many cards, all this one, with its end field. */
void book_copies(struct book *b, const struct picture *card, unsigned int count);

/* Where the field of a card begins, in a book that has it whole. With as many
 * cards as there are, where the end field begins. */
size_t book_field_at(const struct book *b, unsigned int card);

/* The picture of a card that is there. */
void book_take(const struct book *b, unsigned int card, struct picture *taken);

/* Puts a card in the place of one that is there. */
void book_replace(struct book *b, unsigned int card, const struct picture *by);

#endif

#include "book.h"

#include "rows.h"

#include <assert.h>
#include <string.h>

void book_clear(struct book *b)
{
    b->length = 0;
}

void book_byte(struct book *b, unsigned int byte)
{
    assert(b->length < sizeof b->bytes);
    b->bytes[b->length++] = (uint8_t)byte;
}

void book_head(struct book *b, unsigned int tag, unsigned int length)
{
    book_byte(b, tag);
    book_byte(b, length >> 8);
    book_byte(b, length & 0xFF);
}

void book_end(struct book *b)
{
    book_head(b, ZUVAROPY_TAG_END, ZUVAROPY_END_VALUE_BYTES);
}

void book_card(struct book *b, const struct picture *card)
{
    book_head(b, ZUVAROPY_TAG_CARD, (unsigned int)card->length);
    assert(b->length + card->length <= sizeof b->bytes);
    memcpy(b->bytes + b->length, card->bytes, card->length);
    b->length += card->length;
}

void book_copies(struct book *b, const struct picture *card, unsigned int count)
{
    book_clear(b);
    for (; count > 0; count--)
        book_card(b, card);
    book_end(b);
}

static size_t field_bytes(const uint8_t *field)
{
    return ZUVAROPY_CARD_BYTES((size_t)rows_number(field + ZUVAROPY_TAG_BYTES, ZUVAROPY_LENGTH_BYTES));
}

size_t book_field_at(const struct book *b, unsigned int card)
{
    size_t at = 0;

    for (; card > 0; card--)
        at += field_bytes(b->bytes + at);
    return at;
}

void book_take(const struct book *b, unsigned int card, struct picture *taken)
{
    const uint8_t *field = b->bytes + book_field_at(b, card);

    taken->length = field_bytes(field) - ZUVAROPY_HEAD_BYTES;
    assert(taken->length <= sizeof taken->bytes);
    memcpy(taken->bytes, field + ZUVAROPY_HEAD_BYTES, taken->length);
}

void book_replace(struct book *b, unsigned int card, const struct picture *by)
{
    static struct book rest;
    const size_t at = book_field_at(b, card), next = at + field_bytes(b->bytes + at);

    rest.length = b->length - next;
    memcpy(rest.bytes, b->bytes + next, rest.length);
    b->length = at;
    book_card(b, by);
    memcpy(b->bytes + b->length, rest.bytes, rest.length);
    b->length += rest.length;
}

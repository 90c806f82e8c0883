/*
 * The form of a book: heads, lengths and the number of fields, to the last byte.
 * What is in the cards is asked later.
 */

#include "check.h"
#include "most_specific.h"
#include "rows.h"

#include <string.h>

#define CARDS ZUVAROPY_MAX_CARDS

static struct lookup lookup;
static struct picture card;

/* Any cards, which need not be pictures, so that a good form shows as a refusal of card 0. */
#define GOOD word_card(0, ZUVAROPY_QUESTION_TAG, 0)

static void put_any(unsigned int length)
{
    book_head(&lookup.book, ZUVAROPY_TAG_CARD, length);
    for (; length > 0; length--)
        book_byte(&lookup.book, 0xA5);
}

/* So many cards of this length. */
static void make_any(unsigned int count, unsigned int length)
{
    book_clear(&lookup.book);
    for (; count > 0; count--)
        put_any(length);
    book_end(&lookup.book);
}

static void test_empty(void)
{
    book_clear(&lookup.book);
    most_specific_check(&lookup, word_book(), 0);
    book_end(&lookup.book);
    most_specific_check(&lookup, word_cards(0), 1);
    lookup.book.length--;
    most_specific_check(&lookup, word_book(), 2);
    lookup.book.length--;
    most_specific_check(&lookup, word_book(), 3);
}

/* A card may be empty; it is no picture, then. */
static void test_empty_card(void)
{
    unsigned int n;

    make_any(CARDS, 0);
    most_specific_check(&lookup, word_card(0, ZUVAROPY_QUESTION_HEAD, 0), 0);
    make_any(CARDS + 1, 0);
    most_specific_check(&lookup, word_book(), 1);
    for (n = 0; n < CARDS; n++) {
        static const struct picture empty = {0, {0}};

        book_copies(&lookup.book, &card, CARDS);
        book_replace(&lookup.book, n, &empty);
        most_specific_check(&lookup, word_card(n, ZUVAROPY_QUESTION_HEAD, 0), n);
    }
}

/* Any length, and any number up to the limit. */
static void test_lengths(void)
{
    static const unsigned int lengths[] = {3, 4, 26, 27, 28, 255, 256, 257, 6147, 6148, 32767, 32768, 65534, 65535};
    unsigned int i, count;

    for (i = 0; i < sizeof lengths / sizeof lengths[0]; i++) {
        make_any(1, lengths[i]);
        most_specific_check(&lookup, GOOD, lengths[i]);
        lookup.book.length--;
        most_specific_check(&lookup, word_book(), lengths[i]);
    }
    for (count = 1; count <= CARDS + 1; count++) {
        make_any(count, 5);
        most_specific_check(&lookup, count <= CARDS ? GOOD : word_book(), count);
    }
    make_any(CARDS, BOOK_VALUE_BYTES);
    most_specific_room(&lookup, ZUVAROPY_WORK_BYTES, 0xA5, GOOD, 0);
    make_any(CARDS + 1, BOOK_VALUE_BYTES);
    most_specific_room(&lookup, ZUVAROPY_WORK_BYTES, 0xA5, word_book(), 0);
}

/* A picture can be good in a book of any size: the longest book of pictures. */
static void test_longest(void)
{
    static struct picture large;

    picture_fan(&large, ZUVAROPY_MAX_ROWS);
    picture_end(&large);
    book_copies(&lookup.book, &large, CARDS);
    CHECK(lookup.book.length == ZUVAROPY_MAX_BOOK_BYTES);
    most_specific_room(&lookup, ZUVAROPY_WORK_BYTES, 0xA5, word_cards(0), 0);
}

/* Every tag in the place of a card's and of the end's. */
static void test_tags(void)
{
    unsigned int tag, n;
    uint8_t *at;

    for (tag = 0; tag < 256; tag++)
        for (n = 0; n <= 3; n++) {
            book_copies(&lookup.book, &card, 3);
            at = lookup.book.bytes + book_field_at(&lookup.book, n);
            if (*at != tag) {
                *at = (uint8_t)tag;
                most_specific_check(&lookup, word_book(), tag);
            }
        }
}

/* An end field of any other length, with so much behind it or not. */
static void test_end(void)
{
    static const unsigned int lengths[] = {1, 3, 255, 256, 65535};
    unsigned int count, i, n;

    for (count = 0; count <= CARDS; count += 16)
        for (i = 0; i < sizeof lengths / sizeof lengths[0]; i++) {
            book_copies(&lookup.book, &card, count);
            lookup.book.length -= ZUVAROPY_HEAD_BYTES;
            book_head(&lookup.book, ZUVAROPY_TAG_END, lengths[i]);
            most_specific_check(&lookup, word_book(), lengths[i]);
            for (n = 0; n < lengths[i]; n++)
                book_byte(&lookup.book, 0);
            most_specific_check(&lookup, word_book(), lengths[i]);
        }
}

/* Bytes after the end: one, an end field again, and another card. */
static void test_after(void)
{
    unsigned int byte;

    for (byte = 0; byte < 256; byte++) {
        book_copies(&lookup.book, &card, byte % 3);
        book_byte(&lookup.book, byte);
        most_specific_check(&lookup, word_book(), byte);
    }
    book_copies(&lookup.book, &card, 2);
    book_end(&lookup.book);
    most_specific_check(&lookup, word_book(), 0);
    book_copies(&lookup.book, &card, 2);
    book_card(&lookup.book, &card);
    book_end(&lookup.book);
    most_specific_check(&lookup, word_book(), 1);
}

/* A book of three cards that are the case; and what a length other than theirs makes of it: it takes in the next cards,
 * heads and all, so that the card, which has one row, goes on after its end field; else what follows is no head, or is
 * cut. */
static uint64_t wanted_for(unsigned int n, unsigned int length)
{
    const unsigned int field = ZUVAROPY_CARD_BYTES((unsigned int)card.length);
    const unsigned int taken = ZUVAROPY_CARD_BYTES(length);

    if (taken == field)
        return word_cards(1 << 0 | 1 << 1 | 1 << 2);
    return taken % field == 0 && taken <= (3 - n) * field ? word_card(n, ZUVAROPY_QUESTION_STOP, 1) : word_book();
}

static void test_other_lengths(void)
{
    unsigned int length, n;
    uint8_t *at;

    for (n = 0; n < 3; n++)
        for (length = 0; length <= 4 * card.length; length++) {
            book_copies(&lookup.book, &card, 3);
            at = lookup.book.bytes + book_field_at(&lookup.book, n) + ZUVAROPY_TAG_BYTES;
            at[0] = (uint8_t)(length >> 8);
            at[1] = (uint8_t)length;
            most_specific_check(&lookup, wanted_for(n, length), length);
        }
}

/* Cut off anywhere: only a whole book is one. */
static void test_cuts(void)
{
    book_copies(&lookup.book, &card, 3);
    while (lookup.book.length-- > 0)
        most_specific_check(&lookup, word_book(), lookup.book.length);
}

int main(void)
{
    rows_picture(&card, ROWS(ROOT(NAME(3), 0)));
    lookup.case_picture = card;
    test_empty();
    test_empty_card();
    test_lengths();
    test_longest();
    test_tags();
    test_end();
    test_after();
    test_other_lengths();
    test_cuts();
    return check_summary("most specific, form");
}

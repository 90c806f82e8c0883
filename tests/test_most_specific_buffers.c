/*
 * Work spaces of every length and what they hold afterwards, inputs that share
 * their bytes, and no buffer at all.
 */

#include "calls.h"
#include "check.h"
#include "most_specific.h"
#include "normalize.h"
#include "rows.h"

#include <string.h>

#define WORK ZUVAROPY_WORK_BYTES

static struct lookup lookup;

/* Each word with each fill, in work spaces that are just long enough and longer. */
static void test_long(void)
{
    unsigned int i, fill;
    uint64_t wanted;
    size_t more;

    for (i = 0; i < LOOKUP_WORDS; i++) {
        wanted = lookup_make(&lookup, i);
        for (fill = 0; fill < sizeof normalize_fills; fill++)
            for (more = 0; more <= 100; more += 1 + more / 4)
                most_specific_room(&lookup, WORK + more, normalize_fills[fill], wanted, i);
        CHECK_WORD(most_specific_any(&lookup, i), wanted, i);
    }
}

/* Too short by one byte or more: refused, whatever the inputs, and nothing written. */
static void test_short(void)
{
    static const size_t rooms[] = {0, 1, 2, ZUVAROPY_SECOND_TABLE_AT, WORK - 2, WORK - 1};
    unsigned int i, j;

    for (i = 0; i < LOOKUP_WORDS; i++) {
        lookup_make(&lookup, i);
        for (j = 0; j < sizeof rooms / sizeof rooms[0]; j++)
            most_specific_room(&lookup, rooms[j], 0xA5, word_short(), rooms[j]);
    }
}

/* The same by every length, where there are cards to be found. */
static void test_lengths(void)
{
    size_t room;

    lookup_make(&lookup, LOOKUP_WORDS - 1);
    for (room = 0; room < WORK; room++)
        most_specific_room(&lookup, room, normalize_fills[room % 3], word_short(), room);
}

/* All zero whatever the cards: none, none that subsumes the case, all of them, and tables that fill both halves. */
static void test_zeros(void)
{
    static struct picture large;
    unsigned int count;

    picture_fan(&large, ZUVAROPY_MAX_ROWS);
    picture_label(&large, NAME(1), 0, 0);
    picture_end(&large);
    for (count = 0; count <= ZUVAROPY_MAX_CARDS; count += 1 + count) {
        lookup.case_picture = large;
        book_copies(&lookup.book, &large, count);
        most_specific_check(&lookup, word_cards((UINT32_C(1) << count) - 1), count);
        rows_picture(&lookup.case_picture, ROWS(ROOT(0, 0)));
        most_specific_check(&lookup, word_cards(0), count);
    }
}

/* The case may be a card of the book, and the book the bytes after it. */
static void test_shared(void)
{
    static uint8_t work[WORK];
    static struct picture card;
    const uint8_t *file = lookup.book.bytes;

    rows_picture(&card, ROWS(ROOT(NAME(3), 0)));
    book_copies(&lookup.book, &card, 1);
    CHECK_WORD(call_most_specific(file + 3, card.length, file, lookup.book.length, work, sizeof work),
               word_cards(1), 0);
    CHECK_WORD(call_most_specific(file + 3, card.length, file + 3 + card.length, 3, work, sizeof work),
               word_cards(0), 1);
    CHECK_WORD(call_most_specific(file, lookup.book.length, file, lookup.book.length, work, sizeof work),
               word_refusal(ZUVAROPY_QUESTION_TAG, 0), 2);
    CHECK_WORD(call_most_specific(file + 3, card.length, file + 3, card.length, work, sizeof work), word_book(), 3);
}

static void test_nothing(void)
{
    static uint8_t work[WORK];
    const struct picture *one = &lookup.case_picture;
    const struct book *book = &lookup.book;

    lookup_make(&lookup, LOOKUP_WORDS - 1);
    CHECK_WORD(call_most_specific(NULL, 0, NULL, 0, NULL, 0), word_short(), 0);
    CHECK_WORD(call_most_specific(one->bytes, one->length, book->bytes, book->length, NULL, 0), word_short(), 1);
    CHECK_WORD(call_most_specific(NULL, 0, NULL, 0, work, sizeof work), word_refusal(2, 0), 2);
    CHECK_WORD(call_most_specific(NULL, 0, book->bytes, book->length, work, sizeof work), word_refusal(2, 0), 3);
    CHECK_WORD(call_most_specific(one->bytes, one->length, NULL, 0, work, sizeof work), word_book(), 4);
}

int main(void)
{
    test_long();
    test_short();
    test_lengths();
    test_zeros();
    test_shared();
    test_nothing();
    return check_summary("most specific, buffers");
}

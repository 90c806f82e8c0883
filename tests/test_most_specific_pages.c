/*
 * What is read and written: buffers that begin right after, or end right
 * before, a page that may not be touched.
 */

#include "area.h"
#include "calls.h"
#include "check.h"
#include "most_specific.h"
#include "pages.h"
#include "rows.h"

#define WORK ZUVAROPY_WORK_BYTES

static struct lookup lookup;
static struct pages one, book, work;

/* The inputs cannot be written at all, and the work space not where a refusal
 * leaves it alone. `last`: a bit for each buffer that ends with its page. */
static void check_pages(unsigned int last, size_t room, uint64_t wanted)
{
    const uint8_t *one_at = pages_place(&one, lookup.case_picture.bytes, lookup.case_picture.length, last & 1);
    const uint8_t *book_at = pages_place(&book, lookup.book.bytes, lookup.book.length, last & 2);
    uint8_t *work_at = pages_place(&work, NULL, room, last & 4);
    const size_t written = zuvaropy_outcome(wanted) != ZUVAROPY_OUTCOME_REFUSAL ? WORK : 0;

    pages_forbid_writing(&one);
    pages_forbid_writing(&book);
    if (written == 0)
        pages_forbid_writing(&work);
    CHECK_WORD(call_most_specific(one_at, lookup.case_picture.length, book_at, lookup.book.length, work_at, room),
               wanted, last);
    CHECK(area_is_filled(work_at, written, 0));
    CHECK(area_is_filled(work_at + written, room - written, PAGES_FILL));
}

static void check_bounds(size_t room, uint64_t wanted)
{
    unsigned int last;

    for (last = 0; last < 8; last++)
        check_pages(last, room, room < WORK ? word_short() : wanted);
}

/* Each word; and the work space too short, just long enough and longer. */
static void test_bounds(void)
{
    unsigned int i;
    uint64_t wanted;

    for (i = 0; i < LOOKUP_WORDS; i++) {
        wanted = lookup_make(&lookup, i);
        check_bounds(0, wanted);
        check_bounds(WORK - 1, wanted);
        check_bounds(WORK, wanted);
        check_bounds(WORK + 1, wanted);
    }
}

/* No card, the largest tables, and the longest book. */
static void test_long_bounds(void)
{
    static struct picture large;

    picture_fan(&large, ZUVAROPY_MAX_ROWS);
    picture_end(&large);
    lookup.case_picture = large;
    book_copies(&lookup.book, &large, 0);
    check_bounds(WORK, word_cards(0));
    book_copies(&lookup.book, &large, 1);
    check_bounds(WORK, word_cards(1));
    book_copies(&lookup.book, &large, ZUVAROPY_MAX_CARDS);
    check_bounds(WORK, word_cards(0xFFFFFFFF));
    book_copies(&lookup.book, &large, ZUVAROPY_MAX_CARDS + 1);
    check_bounds(WORK, word_book());
}

/* A case and a book cut off anywhere are refused without a byte read behind them. */
static void test_cuts(void)
{
    lookup_make(&lookup, LOOKUP_WORDS - 1);
    while (lookup.book.length-- > 0)
        check_bounds(WORK, word_book());
    lookup_make(&lookup, LOOKUP_WORDS - 1);
    while (lookup.case_picture.length-- > 0)
        check_bounds(WORK, word_refusal(lookup.case_picture.length % 24 < 3 ? 2 : 6,
                                        (unsigned int)lookup.case_picture.length / 24));
}

/* A value that is said to be longer than the book, by one byte or by all there can be. */
static void test_values(void)
{
    unsigned int more;

    for (more = 1; more <= 65535; more = 2 * more + 1) {
        lookup_make(&lookup, LOOKUP_WORDS - 1);
        book_clear(&lookup.book);
        book_head(&lookup.book, ZUVAROPY_TAG_CARD, more);
        while (lookup.book.length < ZUVAROPY_CARD_BYTES(more) - 1)
            book_byte(&lookup.book, 0xA5);
        check_bounds(WORK, word_book());
        lookup.book.length = ZUVAROPY_HEAD_BYTES;
        check_bounds(WORK, word_book());
    }
}

int main(void)
{
    pages_map(&one, sizeof lookup.case_picture.bytes);
    pages_map(&book, sizeof lookup.book.bytes);
    pages_map(&work, MOST_SPECIFIC_ROOM);
    test_bounds();
    test_long_bounds();
    test_cuts();
    test_values();
    return check_summary("most specific, pages");
}

/*
 * The largest books: 32 cards of 256 rows that all subsume the case, where each
 * card is compared with each, every row meets every other, and nothing is decided
 * before the last.
 */

#define _POSIX_C_SOURCE 200112L /* alarm */

#include "check.h"
#include "most_specific.h"
#include "rows.h"

#include <unistd.h>

/* Long enough for everything here, and short beside a search that meets pairs more than once at each depth. */
#define SECONDS 100

#define R 8
#define MAX_ROWS ZUVAROPY_MAX_ROWS
#define CARDS ZUVAROPY_MAX_CARDS
#define LOW_NAMES UINT64_C(0xFFFFFFFF)

static struct lookup lookup;

/* A chain of so many some-edges and all the rest of 256 rows below its end, each with these names but the last. */
static void make_brush(struct picture *p, unsigned int depth, uint64_t names, uint64_t last)
{
    unsigned int row;

    picture_clear(p);
    picture_row(p, 0, ZUVAROPY_KIND_ROOT, 0);
    for (row = 1; row < MAX_ROWS; row++) {
        picture_row(p, row <= depth ? row - 1 : depth, ZUVAROPY_KIND_EXISTS, R);
        if (row > depth)
            picture_label(p, row == MAX_ROWS - 1 ? last : names, 0, 0);
    }
    picture_end(p);
}

/* The rows of a card ask each for a name that in any other card, and in the case, only the last row has. The last row
 * of card n asks for these higher names too. */
static void make_book(unsigned int depth, uint64_t (*higher)(unsigned int n))
{
    static struct picture card;
    unsigned int n;

    make_brush(&lookup.case_picture, depth, 0, ~UINT64_C(0));
    book_clear(&lookup.book);
    for (n = 0; n < CARDS; n++) {
        make_brush(&card, depth, NAME(n), LOW_NAMES | higher(n) << 32);
        book_card(&lookup.book, &card);
    }
    book_end(&lookup.book);
}

static uint64_t one_each(unsigned int n)
{
    return NAME(n);
}

static uint64_t rising(unsigned int n)
{
    return NAME(n + 1) - 1;
}

static uint64_t falling(unsigned int n)
{
    return LOW_NAMES >> n;
}

static uint64_t none(unsigned int n)
{
    (void)n;
    return 0;
}

static uint64_t one_for_two(unsigned int n)
{
    return NAME(n / 2);
}

static uint64_t rising_by_two(unsigned int n)
{
    return rising(n / 2);
}

/* No card subsumes another; each subsumes all before or after it; and where only the last row tells, which has all that
 * the others ask for, each subsumes each. Then the first two with pairs of cards that subsume each other. */
static void test_late(void)
{
    unsigned int depth;

    for (depth = 0; depth < ZUVAROPY_MAX_DEPTH; depth += 11) {
        make_book(depth, one_each);
        CHECK_WORD(most_specific_any(&lookup, depth), word_cards(0xFFFFFFFF), depth);
        make_book(depth, rising);
        CHECK_WORD(most_specific_any(&lookup, depth), word_cards(UINT32_C(1) << 31), depth);
        make_book(depth, falling);
        CHECK_WORD(most_specific_any(&lookup, depth), word_cards(1), depth);
        make_book(depth, none);
        CHECK_WORD(most_specific_any(&lookup, depth), word_cards(0xFFFFFFFF), depth);
        make_book(depth, one_for_two);
        CHECK_WORD(most_specific_any(&lookup, depth), word_cards(0xFFFFFFFF), depth);
        make_book(depth, rising_by_two);
        CHECK_WORD(most_specific_any(&lookup, depth), word_cards(UINT32_C(3) << 30), depth);
    }
}

/* Few rows that merge to 256, with a name by which no card subsumes another; and one row more in the last card. */
static void test_merged(void)
{
    static struct picture card;
    unsigned int n;

    book_clear(&lookup.book);
    for (n = 0; n < CARDS; n++) {
        picture_spread(&card, 16, 14);
        picture_label(&card, NAME(n), 0, 0);
        if (n == 0)
            lookup.case_picture = card;
        picture_end(&card);
        book_card(&lookup.book, &card);
    }
    book_end(&lookup.book);
    picture_label(&lookup.case_picture, LOW_NAMES, 0, 0);
    picture_end(&lookup.case_picture);
    CHECK_WORD(most_specific_any(&lookup, 0), word_cards(0xFFFFFFFF), 0);

    card.length -= ZUVAROPY_HEAD_BYTES;
    picture_row(&card, 0, ZUVAROPY_KIND_EXISTS, 1);
    picture_end(&card);
    book_replace(&lookup.book, CARDS - 1, &card);
    CHECK_WORD(most_specific_any(&lookup, 1), word_card(CARDS - 1, ZUVAROPY_QUESTION_MERGED, 0), 1);
}

int main(void)
{
    alarm(SECONDS);
    test_late();
    test_merged();
    return check_summary("most specific, large");
}

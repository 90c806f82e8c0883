#include "most_specific.h"

#include "area.h"
#include "calls.h"
#include "check.h"
#include "most_specific_reference.h"
#include "normalize.h"
#include "rows.h"

#include <string.h>

#define R 8
#define LAST_CARD 3

static struct area work;

static void most_specific_area(const struct lookup *l, uint64_t wanted, unsigned long at)
{
    static struct lookup before;
    uint64_t word;

    memcpy(before.case_picture.bytes, l->case_picture.bytes, l->case_picture.length);
    memcpy(before.book.bytes, l->book.bytes, l->book.length);
    word = call_most_specific(l->case_picture.bytes, l->case_picture.length, l->book.bytes, l->book.length,
                              area_lent(&work), work.room);
    CHECK_WORD(word, wanted, at);
    CHECK(memcmp(before.case_picture.bytes, l->case_picture.bytes, l->case_picture.length) == 0);
    CHECK(memcmp(before.book.bytes, l->book.bytes, l->book.length) == 0);
    if (zuvaropy_outcome(wanted) != ZUVAROPY_OUTCOME_REFUSAL)
        memset(area_wanted(&work), 0, ZUVAROPY_WORK_BYTES);
    CHECK(area_is_as_wanted(&work));
}

void most_specific_room(const struct lookup *l, size_t room, unsigned int fill, uint64_t wanted, unsigned long at)
{
    area_fill(&work, room, fill);
    most_specific_area(l, wanted, at);
}

uint64_t most_specific_any(const struct lookup *l, unsigned long at)
{
    const uint64_t wanted = reference_most_specific(l);

    area_fill_any(&work, ZUVAROPY_WORK_BYTES);
    most_specific_area(l, wanted, at);
    return wanted;
}

void most_specific_check(const struct lookup *l, uint64_t wanted, unsigned long at)
{
    unsigned int i;

    CHECK_WORD(most_specific_any(l, at), wanted, at);
    for (i = 0; i < sizeof normalize_fills; i++)
        most_specific_room(l, ZUVAROPY_WORK_BYTES, normalize_fills[i], wanted, at);
}

uint64_t word_cards(uint32_t cards)
{
    return (uint64_t)1 << 56 | cards;
}

uint64_t word_book(void)
{
    return (uint64_t)24 << 48 | (uint64_t)4 << 40;
}

uint64_t word_card(unsigned int card, unsigned int question, unsigned int row)
{
    return (uint64_t)question << 48 | (uint64_t)5 << 40 | (uint64_t)card << 32 | word_place(row);
}

uint64_t word_card_refused(unsigned int card, unsigned int question)
{
    return word_card(card, question, picture_refused_row(question));
}

/* Cards 0 and 2 are the most specific ones: card 1 subsumes both, and card 3 does not subsume the case. */
static void make_answered(struct lookup *l)
{
    static struct picture card;

    rows_picture(&l->case_picture, ROWS(ROOT(NAME(1) | NAME(2), NAME(3)), SOME(0, R, NAME(4), 0)));
    book_clear(&l->book);
    rows_picture(&card, ROWS(ROOT(NAME(1) | NAME(2), 0)));
    book_card(&l->book, &card);
    rows_picture(&card, ROWS(ROOT(NAME(1), 0)));
    book_card(&l->book, &card);
    rows_picture(&card, ROWS(ROOT(NAME(1), 0), SOME(0, R, NAME(4), 0)));
    book_card(&l->book, &card);
    rows_picture(&card, ROWS(ROOT(NAME(1), 0), SOME(0, R, NAME(5), 0)));
    book_card(&l->book, &card);
    book_end(&l->book);
}

uint64_t lookup_make(struct lookup *l, unsigned int n)
{
    static struct picture refused;
    const unsigned int question = ZUVAROPY_QUESTION_HEAD + n % 13, card = n / 13 == 1 ? 0 : LAST_CARD;

    make_answered(l);
    if (n == LOOKUP_WORDS - 1)
        return word_cards(1 << 0 | 1 << 2);
    if (n == LOOKUP_WORDS - 2) {
        book_byte(&l->book, 0);
        return word_book();
    }
    picture_refused(&refused, question);
    if (n < 13) {
        l->case_picture = refused;
        return word_refused(question);
    }
    book_replace(&l->book, card, &refused);
    return word_card_refused(card, question);
}

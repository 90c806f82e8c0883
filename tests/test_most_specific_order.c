/*
 * The order of the questions: the work space, the case, the form of the book,
 * the cards in turn, 14 of the case, 14 of the cards in turn.
 */

#include "check.h"
#include "most_specific.h"
#include "rows.h"

#define CARDS ZUVAROPY_MAX_CARDS
#define MERGED ZUVAROPY_QUESTION_MERGED

static struct lookup lookup;

/* A short work space is refused before anything else is looked at. */
static void check(uint64_t wanted, unsigned long at)
{
    most_specific_check(&lookup, wanted, at);
    most_specific_room(&lookup, ZUVAROPY_WORK_BYTES - 1, 0xA5, word_short(), at);
}

/* Is the question one that reading asks? */
static int is_read(unsigned int question)
{
    return question != 0 && question != MERGED;
}

/* The word where these questions refuse the case and two cards, none if 0, and the form may be broken. */
static uint64_t wanted_of(unsigned int one, int broken, unsigned int card, unsigned int next)
{
    if (is_read(one))
        return word_refused(one);
    if (broken)
        return word_book();
    if (is_read(card))
        return word_card_refused(0, card);
    if (is_read(next))
        return word_card_refused(1, next);
    if (one != 0)
        return word_refused(one);
    if (card != 0)
        return word_card_refused(0, card);
    return next != 0 ? word_card_refused(1, next) : word_cards(1 << 0 | 1 << 1);
}

/* A book of two cards, its last byte cut off if it is to be broken. */
static void make(unsigned int one, int broken, unsigned int card, unsigned int next)
{
    static struct picture refused;

    picture_refused(&lookup.case_picture, one);
    book_clear(&lookup.book);
    picture_refused(&refused, card);
    book_card(&lookup.book, &refused);
    picture_refused(&refused, next);
    book_card(&lookup.book, &refused);
    book_end(&lookup.book);
    if (broken)
        lookup.book.length--;
}

/* Each question of the case with each of both cards, and with the book's. The same good picture three times: both cards
 * are found. */
static void test_all(void)
{
    unsigned int one, card, next;

    for (one = 0; one <= MERGED; one++)
        for (card = 0; card <= MERGED; card++)
            for (next = 0; next <= MERGED; next++)
                if (one != ZUVAROPY_QUESTION_BUFFER && card != ZUVAROPY_QUESTION_BUFFER &&
                    next != ZUVAROPY_QUESTION_BUFFER) {
                    make(one, 0, card, next);
                    check(wanted_of(one, 0, card, next), 256 * one + 16 * card + next);
                    make(one, 1, card, next);
                    check(wanted_of(one, 1, card, next), 256 * one + 16 * card + next);
                }
}

/* A full book of good cards, each with a name of its own, which the case has. */
static void make_full(void)
{
    static struct picture card;
    unsigned int n;

    rows_picture(&lookup.case_picture, ROWS(ROOT(~UINT64_C(0), 0)));
    book_clear(&lookup.book);
    for (n = 0; n < CARDS; n++) {
        rows_picture(&card, ROWS(ROOT(NAME(n), 0)));
        book_card(&lookup.book, &card);
    }
    book_end(&lookup.book);
}

static void refuse(unsigned int card, unsigned int question)
{
    static struct picture refused;

    picture_refused(&refused, question);
    book_replace(&lookup.book, card, &refused);
}

/* Each question of each card alone. */
static void test_each(void)
{
    unsigned int card, question;

    for (card = 0; card < CARDS; card++)
        for (question = ZUVAROPY_QUESTION_HEAD; question <= MERGED; question++) {
            make_full();
            refuse(card, question);
            check(word_card_refused(card, question), 16 * card + question);
        }
}

/* Of two cards that are refused, the one with the lower number; but 14 only if none is refused by another question. */
static void test_two(void)
{
    unsigned int card, later;

    for (card = 0; card < CARDS; card++)
        for (later = card + 1; later < CARDS; later += 1 + later / 4) {
            make_full();
            refuse(card, ZUVAROPY_QUESTION_IMPOSSIBLE);
            refuse(later, ZUVAROPY_QUESTION_HEAD);
            check(word_card_refused(card, ZUVAROPY_QUESTION_IMPOSSIBLE), CARDS * card + later);
            refuse(card, MERGED);
            check(word_card_refused(later, ZUVAROPY_QUESTION_HEAD), CARDS * card + later);
            refuse(later, MERGED);
            check(word_card_refused(card, MERGED), CARDS * card + later);
            picture_refused(&lookup.case_picture, MERGED);
            check(word_refused(MERGED), CARDS * card + later);
        }
}

/* 14 of the first, against every other question of the last. */
static void test_first_and_last(void)
{
    unsigned int question;

    for (question = ZUVAROPY_QUESTION_HEAD; question < MERGED; question++) {
        make_full();
        refuse(0, MERGED);
        refuse(CARDS - 1, question);
        check(word_card_refused(CARDS - 1, question), question);
        picture_refused(&lookup.case_picture, MERGED);
        check(word_card_refused(CARDS - 1, question), question);
        picture_refused(&lookup.case_picture, ZUVAROPY_QUESTION_IMPOSSIBLE);
        check(word_refused(ZUVAROPY_QUESTION_IMPOSSIBLE), question);
    }
}

/* A card too many is found before any card is looked at. */
static void test_too_many(void)
{
    static struct picture refused;
    unsigned int question;

    for (question = ZUVAROPY_QUESTION_HEAD; question <= MERGED; question++) {
        picture_refused(&refused, question);
        rows_picture(&lookup.case_picture, ROWS(ROOT(0, 0)));
        book_copies(&lookup.book, &refused, CARDS + 1);
        check(word_book(), question);
        lookup.case_picture = refused;
        check(question == MERGED ? word_book() : word_refused(question), question);
    }
}

/* 14 is asked of every card, also of one that can be seen not to subsume the case, and before breaking: an impossible
 * root does not help. */
static void test_merged(void)
{
    static struct picture broken;

    picture_refused(&broken, MERGED);
    picture_value(&broken, 0)[ZUVAROPY_IMPOSSIBLE_AT] = 1;
    rows_picture(&lookup.case_picture, ROWS(ROOT(NAME(1), 0)));
    book_copies(&lookup.book, &broken, 1);
    check(word_card_refused(0, MERGED), 0);
    book_copies(&lookup.book, &lookup.case_picture, 2);
    book_replace(&lookup.book, 1, &broken);
    check(word_card_refused(1, MERGED), 1);
    lookup.case_picture = broken;
    book_copies(&lookup.book, &broken, 0);
    check(word_refused(MERGED), 2);
}

int main(void)
{
    test_all();
    test_each();
    test_two();
    test_first_and_last();
    test_too_many();
    test_merged();
    return check_summary("most specific, order");
}

/*
 * The library and the reference agree on the most specific cards of books made
 * at random: most cards are the case with a few changes, another card with a few
 * changes, or another card in other words. What follows from the definition holds
 * of each word. The seed is fixed: every run tests the same books.
 */

#include "check.h"
#include "most_specific.h"
#include "most_specific_reference.h"
#include "random.h"

#include <string.h>

#define BOOKS 6000
#define CARDS ZUVAROPY_MAX_CARDS
#define CARD(n) (UINT32_C(1) << (n))

static struct lookup lookup;

/* The verdicts of zuvaropy_subsumes on a book: the cards that subsume the case and, of each of them, those of them that
 * it subsumes and those that are equivalent to it, which subsume it too. */
static struct {
    uint32_t subsuming, subsumed[CARDS], equivalent[CARDS];
} verdicts;

static void find_verdicts(void)
{
    unsigned int n, m;

    memset(&verdicts, 0, sizeof verdicts);
    verdicts.subsuming = reference_most_specific_subsuming();
    for (n = 0; n < CARDS; n++)
        for (m = 0; m < CARDS; m++)
            if ((verdicts.subsuming & CARD(n)) != 0 && (verdicts.subsuming & CARD(m)) != 0 &&
                reference_most_specific_subsumes(n, m))
                verdicts.subsumed[n] |= CARD(m);
    for (n = 0; n < CARDS; n++)
        for (m = 0; m < CARDS; m++)
            if ((verdicts.subsumed[n] & CARD(m)) != 0 && (verdicts.subsumed[m] & CARD(n)) != 0)
                verdicts.equivalent[n] |= CARD(m);
}

/* Does each card that subsumes the case subsume one that is found? */
static int is_below_each(uint32_t found)
{
    unsigned int n;

    for (n = 0; n < CARDS; n++)
        if ((verdicts.subsuming & CARD(n)) != 0 && (verdicts.subsumed[n] & found) == 0)
            return 0;
    return 1;
}

/* Are equivalent cards found together or not at all? */
static int is_found_together(uint32_t found)
{
    unsigned int n;

    for (n = 0; n < CARDS; n++)
        if ((verdicts.equivalent[n] & found) != 0 && (verdicts.equivalent[n] & ~found) != 0)
            return 0;
    return 1;
}

/* Of two cards that are found, does one subsume the other only if they are equivalent? */
static int is_minimal(uint32_t found)
{
    unsigned int n;

    for (n = 0; n < CARDS; n++)
        if ((found & CARD(n)) != 0 && (verdicts.subsumed[n] & found & ~verdicts.equivalent[n]) != 0)
            return 0;
    return 1;
}

static void check_found(uint32_t found)
{
    CHECK((found & ~verdicts.subsuming) == 0);
    CHECK((found != 0) == (verdicts.subsuming != 0));
    CHECK(is_below_each(found));
    CHECK(is_found_together(found));
    CHECK(is_minimal(found));
}

/* How often each answer was met. */
static struct {
    unsigned long refused[ZUVAROPY_INPUT_CARD + 1][ZUVAROPY_QUESTION_BOOK + 1];
    unsigned long later[ZUVAROPY_QUESTION_BOOK + 1]; /* of cards after card 0 */
    unsigned long none, empty, one, several;         /* cards in the set */
    unsigned long passed_over;                       /* some of those that subsume the case */
    struct {
        unsigned long found, passed_over;
        unsigned long reworded; /* found, and of other bytes */
        unsigned long beside;   /* found beside a card that is not equivalent to them */
    } equivalent;               /* cards, two at least */
} met;

static int is_one(uint32_t set)
{
    return set != 0 && (set & (set - 1)) == 0;
}

/* Is one of these cards of other bytes? */
static unsigned int has_other_bytes(uint32_t set)
{
    static struct picture first, next;
    unsigned int n, seen = 0;

    for (n = 0; n < CARDS; n++)
        if ((set & CARD(n)) != 0) {
            book_take(&lookup.book, n, seen++ == 0 ? &first : &next);
            if (seen > 1 && (first.length != next.length || memcmp(first.bytes, next.bytes, first.length) != 0))
                return 1;
        }
    return 0;
}

static void count_equivalent(uint32_t found)
{
    unsigned int n, together = 0, reworded = 0, beside = 0, passed_over = 0;

    for (n = 0; n < CARDS; n++)
        if (verdicts.equivalent[n] == 0 || is_one(verdicts.equivalent[n])) {
            continue;
        } else if ((found & CARD(n)) == 0) {
            passed_over = 1;
        } else {
            together = 1;
            reworded |= has_other_bytes(verdicts.equivalent[n]);
            beside |= (found & ~verdicts.equivalent[n]) != 0;
        }
    met.equivalent.found += together;
    met.equivalent.reworded += reworded;
    met.equivalent.beside += beside;
    met.equivalent.passed_over += passed_over;
}

static void count(uint64_t word)
{
    const uint32_t found = zuvaropy_value(word);

    if (zuvaropy_outcome(word) == ZUVAROPY_OUTCOME_REFUSAL) {
        met.refused[zuvaropy_input(word)][zuvaropy_question(word)]++;
        met.later[zuvaropy_question(word)] += zuvaropy_card(word) > 0;
        return;
    }
    met.empty += lookup.book.length == ZUVAROPY_HEAD_BYTES;
    met.none += found == 0;
    met.one += is_one(found);
    met.several += found != 0 && !is_one(found);
    met.passed_over += found != verdicts.subsuming;
    count_equivalent(found);
}

static void check(unsigned long at)
{
    const uint64_t word = most_specific_any(&lookup, at);

    if (zuvaropy_outcome(word) != ZUVAROPY_OUTCOME_REFUSAL) {
        find_verdicts();
        check_found(zuvaropy_value(word));
    }
    count(word);
}

/* Takes something away, so that the picture mostly subsumes what it was. */
static void weaken(struct picture *p)
{
    uint8_t *value = picture_value(p, random_below(picture_rows(p)));

    if (random_below(2) == 0 && picture_rows(p) > 1) {
        p->length -= ZUVAROPY_ROW_BYTES + ZUVAROPY_HEAD_BYTES;
        picture_end(p);
        return;
    }
    memset(value + (random_below(2) ? ZUVAROPY_WANTED_AT : ZUVAROPY_EXCLUDED_AT), 0, ZUVAROPY_NAME_SET_BYTES);
}

/* A card from the case or from the card before it; seldom one of its own, which may be too large or too deep. */
static void make_card(struct picture *card, const struct shape *s)
{
    const struct shape other = random_shape();
    unsigned int changes;

    if (random_below(2) == 0)
        *card = lookup.case_picture;
    for (changes = 1 + random_below(4); changes > 0; changes--)
        weaken(card);
    if (random_below(4) == 0)
        random_change(card, s);
    if (random_below(16) == 0)
        random_picture(card, &other);
}

/* One of so many cards of the book, as it is or in other words. */
static void make_equivalent(struct picture *card, unsigned int cards)
{
    unsigned int changes;

    book_take(&lookup.book, random_below(cards), card);
    for (changes = random_below(3); changes > 0; changes--)
        random_reword(card);
}

/* Any number of cards, mostly few, seldom one too many. */
static unsigned int random_count(void)
{
    switch (random_below(16)) {
    case 0:
        return random_below(ZUVAROPY_MAX_CARDS + 2);
    case 1:
        return ZUVAROPY_MAX_CARDS;
    default:
        return random_below(8);
    }
}

static void make_book(const struct shape *s)
{
    static struct picture card;
    const unsigned int cards = random_count();
    unsigned int n;

    card = lookup.case_picture;
    book_clear(&lookup.book);
    for (n = 0; n < cards; n++) {
        if (n > 0 && random_below(4) == 0)
            make_equivalent(&card, n);
        else
            make_card(&card, s);
        book_card(&lookup.book, &card);
    }
    book_end(&lookup.book);
}

/* One more card, a damaged one, and at times another in the place of card 0. */
static void damage_cards(void)
{
    static struct picture p;

    p = lookup.case_picture;
    random_damage(&p);
    if (random_below(2) && lookup.book.bytes[0] == ZUVAROPY_TAG_CARD)
        book_replace(&lookup.book, 0, &p);
    lookup.book.length -= ZUVAROPY_HEAD_BYTES;
    if (p.length > 0)
        random_damage(&p);
    book_card(&lookup.book, &p);
    book_end(&lookup.book);
}

/* Damages the case, a card or the book. */
static void damage(void)
{
    const unsigned int at = random_below((unsigned int)lookup.book.length);

    switch (random_below(6)) {
    case 0:
        random_damage(&lookup.case_picture);
        break;
    case 1:
        lookup.book.bytes[at] = (uint8_t)random_next();
        break;
    case 2:
        lookup.book.length = at;
        break;
    default:
        damage_cards();
    }
}

int main(void)
{
    unsigned int question;
    unsigned long i;

    for (i = 0; i < BOOKS; i++) {
        struct shape shape = random_shape();

        if (i % 2 == 0) /* few value restrictions: large pictures have tables too */
            shape.all = random_below(2);
        if (i % 4 != 1) /* rows mostly say something of their own */
            shape.named = 8;
        random_picture(&lookup.case_picture, &shape);
        make_book(&shape);
        check(i);
        if (i % 2 == 0) {
            damage();
            check(i);
        }
    }

    /* The books reach every answer, and often. */
    CHECK(met.empty > BOOKS / 100);
    CHECK(met.none > BOOKS / 100);
    CHECK(met.one > BOOKS / 10);
    CHECK(met.several > BOOKS / 40);
    CHECK(met.passed_over > BOOKS / 20);
    CHECK(met.equivalent.found > BOOKS / 4);
    CHECK(met.equivalent.reworded > BOOKS / 4);
    CHECK(met.equivalent.beside > BOOKS / 40);
    CHECK(met.equivalent.passed_over > BOOKS / 10);
    CHECK(met.refused[ZUVAROPY_INPUT_BOOK][ZUVAROPY_QUESTION_BOOK] > BOOKS / 50);
    for (question = ZUVAROPY_QUESTION_HEAD; question <= ZUVAROPY_QUESTION_MERGED; question++) {
        CHECK(met.refused[ZUVAROPY_INPUT_FIRST][question] > 0);
        CHECK(met.refused[ZUVAROPY_INPUT_CARD][question] > 0);
        CHECK(met.later[question] > 0);
    }
    return check_summary("most specific at random");
}

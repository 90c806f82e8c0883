/*
 * The most specific cards by hand, at every place of a book, and the exact bytes
 * of one answer.
 */

#include "calls.h"
#include "check.h"
#include "most_specific.h"
#include "rows.h"

#include <string.h>

#define R 8
#define S 9
#define CARDS ZUVAROPY_MAX_CARDS
#define CARD(n) (UINT32_C(1) << (n))
#define ALL_CARDS UINT32_C(0xFFFFFFFF)

static struct lookup lookup;

#define TOP {ROWS(ROOT(0, 0))}
#define A {ROWS(ROOT(NAME(1), 0))}
#define B {ROWS(ROOT(NAME(2), 0))}
#define C {ROWS(ROOT(NAME(3), 0))}
#define A_B {ROWS(ROOT(NAME(1) | NAME(2), 0))}
#define A_B_C {ROWS(ROOT(NAME(1) | NAME(2) | NAME(3), 0))}
#define NONE {ROWS(ROOT_NONE)}

static const struct {
    struct row_list looked_up, cards[6]; /* an empty one after the last */
    uint32_t found;
} cases[] = {
    /* 0 to 4: no card; one that is the case, one that everything is an instance of, one that does not subsume it. */
    {A, {{NULL, 0}}, 0},
    {A_B, {A_B}, CARD(0)},
    {A_B, {TOP}, CARD(0)},
    {A, {B}, 0},
    {A, {A_B}, 0},
    /* 5 to 8: the last of a chain is found alone, wherever it is. */
    {A_B_C, {TOP, A, A_B}, CARD(2)},
    {A_B_C, {A_B, A, TOP}, CARD(0)},
    {A_B_C, {A, A_B, TOP}, CARD(1)},
    {A_B_C, {TOP, A, A_B, A_B_C}, CARD(3)},
    /* 9 to 12: cards side by side, and diamonds with and without their lower end. */
    {A_B, {A, B}, CARD(0) | CARD(1)},
    {A_B, {TOP, A, B}, CARD(1) | CARD(2)},
    {A_B, {TOP, A, B, A_B}, CARD(3)},
    {A_B_C, {A_B, B, A, TOP}, CARD(0)},
    /* 13 to 16: for a card that does not subsume the case none is passed over. */
    {A, {A, A_B}, CARD(0)},
    {A_B, {TOP, A, A_B_C, B}, CARD(1) | CARD(3)},
    {A, {TOP, B, A_B}, CARD(0)},
    {A, {A, A_B, A, A_B}, CARD(0) | CARD(2)},
    /* 17 to 22: cards that are the same subsume each other and are found together; so are those beside them. */
    {A, {A, A}, CARD(0) | CARD(1)},
    {A, {A, A, A}, CARD(0) | CARD(1) | CARD(2)},
    {A, {A, A, A, A}, CARD(0) | CARD(1) | CARD(2) | CARD(3)},
    {A_B, {A, A, B}, CARD(0) | CARD(1) | CARD(2)},
    {A_B, {A, B, A, B}, CARD(0) | CARD(1) | CARD(2) | CARD(3)},
    {A_B, {B, A, A, TOP, B}, CARD(0) | CARD(1) | CARD(2) | CARD(4)},
    /* 23 to 27: for them a more general card is passed over, before, between and after them; and one that is there
     * more than once. */
    {A_B, {TOP, A, A}, CARD(1) | CARD(2)},
    {A_B, {A, TOP, A}, CARD(0) | CARD(2)},
    {A_B, {A, A, TOP}, CARD(0) | CARD(1)},
    {A_B, {TOP, A, TOP, A, TOP}, CARD(1) | CARD(3)},
    {A_B_C, {A, A_B, A, A_B, TOP}, CARD(1) | CARD(3)},
    /* 28 to 31: and they for a more specific one, after, between and before them; those beside it are not. */
    {A_B_C, {A, A, A_B}, CARD(2)},
    {A_B_C, {A, A_B, A}, CARD(1)},
    {A_B_C, {A_B, A, A}, CARD(0)},
    {A_B_C, {A, C, A, A_B, C}, CARD(1) | CARD(3) | CARD(4)},
    /* 32 to 35: diamonds that have two cards at one of their corners. */
    {A_B_C, {TOP, A, B, A_B, A_B}, CARD(3) | CARD(4)},
    {A_B_C, {A_B, B, TOP, A, A_B}, CARD(0) | CARD(4)},
    {A_B_C, {TOP, A, A, B, A_B}, CARD(4)},
    {A_B, {A, TOP, B, TOP, A}, CARD(0) | CARD(2) | CARD(4)},
    /* 36 to 41: so it is with cards of other bytes that have the same instances: a value restriction in two, one that
     * says nothing, existential restrictions turned round and one that follows, a value restriction passed on. */
    {{ROWS(ROOT(0, 0), ALL(0, R, NAME(3) | NAME(5) | NAME(6), 0))},
     {{ROWS(ROOT(0, 0), ALL(0, R, NAME(3), 0), ALL(0, R, NAME(5), 0))},
      {ROWS(ROOT(0, 0), ALL(0, R, NAME(3) | NAME(5), 0))}},
     CARD(0) | CARD(1)},
    {A_B, {A, {ROWS(ROOT(NAME(1), 0), ALL(0, R, 0, 0))}, B}, CARD(0) | CARD(1) | CARD(2)},
    {{ROWS(ROOT(0, 0), SOME(0, R, NAME(3) | NAME(5), 0))},
     {{ROWS(ROOT(0, 0), SOME(0, R, NAME(3), 0), SOME(0, R, NAME(5), 0))},
      {ROWS(ROOT(0, 0), SOME(0, R, NAME(5), 0), SOME(0, R, NAME(3), 0), SOME(0, R, 0, 0))},
      TOP},
     CARD(0) | CARD(1)},
    {{ROWS(ROOT(0, 0), ALL(0, R, NAME(3), 0), SOME(0, R, NAME(5), 0))},
     {{ROWS(ROOT(0, 0), ALL(0, R, NAME(3), 0), SOME(0, R, NAME(5), 0))},
      {ROWS(ROOT(0, 0), ALL(0, R, NAME(3), 0), SOME(0, R, NAME(3) | NAME(5), 0))}},
     CARD(0) | CARD(1)},
    {{ROWS(ROOT(0, 0), ALL(0, R, NAME(3), 0), SOME(0, R, NAME(5), 0))},
     {{ROWS(ROOT(0, 0), ALL(0, R, NAME(3), 0), SOME(0, R, NAME(5), 0))},
      {ROWS(ROOT(0, 0), SOME(0, R, NAME(3) | NAME(5), 0))},
      {ROWS(ROOT(0, 0), SOME(0, R, NAME(3) | NAME(5), 0), ALL(0, R, NAME(3), 0))}},
     CARD(0) | CARD(2)},
    {{ROWS(ROOT(0, 0), SOME(0, R, NAME(3) | NAME(5), 0))},
     {{ROWS(ROOT(0, 0), SOME(0, R, NAME(3), 0), SOME(0, R, NAME(5), 0))},
      {ROWS(ROOT(0, 0), SOME(0, R, NAME(3) | NAME(5), 0))},
      {ROWS(ROOT(0, 0), SOME(0, R, NAME(5), 0), SOME(0, R, NAME(3), 0))}},
     CARD(1)},
    /* 42 to 49: an impossible case is an instance of every card; an impossible card subsumes no other case. A card may
     * be impossible in many ways, and in two at once. */
    {NONE, {A, B, TOP}, CARD(0) | CARD(1)},
    {NONE, {A, B, TOP, NONE}, CARD(3)},
    {NONE, {NONE, {ROWS(ROOT(NAME(3), NAME(3)))}, A}, CARD(0) | CARD(1)},
    {NONE,
     {{ROWS({0, ZUVAROPY_KIND_ROOT, 0, 1, NAME(3), NAME(3)})},
      {ROWS(ROOT(0, 0), SOME_NONE(0, R))},
      B,
      {ROWS(ROOT_NONE, SOME_NONE(0, R))},
      {ROWS(ROOT(0, 0), SOME(0, R, NAME(3), 0), ALL(0, R, 0, NAME(3)))}},
     CARD(0) | CARD(1) | CARD(3) | CARD(4)},
    {{ROWS(ROOT(0, 0), ALL_NONE(0, R), SOME(0, R, 0, 0))}, {A, NONE}, CARD(1)},
    {A, {NONE, A}, CARD(1)},
    {A, {NONE, NONE}, 0},
    {A, {NONE, A, NONE, A}, CARD(1) | CARD(3)},
    /* 50 to 53: one with both names is one with either; an impossible value restriction is subsumed by any other. */
    {{ROWS(ROOT(0, 0), SOME(0, R, NAME(3) | NAME(5), 0))},
     {{ROWS(ROOT(0, 0), SOME(0, R, NAME(3), 0), SOME(0, R, NAME(5), 0))},
      {ROWS(ROOT(0, 0), SOME(0, R, NAME(3), 0))},
      {ROWS(ROOT(0, 0), SOME(0, R, NAME(5), 0))}},
     CARD(0)},
    {{ROWS(ROOT(0, 0), ALL_NONE(0, R))},
     {{ROWS(ROOT(0, 0), ALL(0, R, NAME(5), 0))}, {ROWS(ROOT(0, 0), SOME(0, R, 0, 0))}},
     CARD(0)},
    {{ROWS(ROOT(0, 0), ALL_NONE(0, R))},
     {{ROWS(ROOT(0, 0), ALL(0, R, NAME(5), 0))},
      {ROWS(ROOT(0, 0), ALL(0, R, 0, NAME(5)))},
      {ROWS(ROOT(0, 0), ALL_NONE(0, R))}},
     CARD(2)},
    {{ROWS(ROOT(0, 0), ALL_NONE(0, R))},
     {{ROWS(ROOT(0, 0), ALL(0, R, NAME(5), 0), ALL(0, R, 0, NAME(5)))},
      {ROWS(ROOT(0, 0), ALL(0, R, NAME(5), 0))},
      {ROWS(ROOT(0, 0), ALL_NONE(0, R))}},
     CARD(0) | CARD(2)},
    /* 54, 55: the normal tables are compared, and not the pictures. */
    {{ROWS(ROOT(0, 0), ALL(0, R, NAME(3), 0), SOME(0, R, NAME(5), 0))},
     {{ROWS(ROOT(0, 0), SOME(0, R, NAME(3) | NAME(5), 0))},
      {ROWS(ROOT(0, 0), SOME(0, R, NAME(3), 0))},
      {ROWS(ROOT(0, 0), ALL(0, R, NAME(3), 0))}},
     CARD(0) | CARD(2)},
    {{ROWS(ROOT(0, 0), ALL(0, R, 0, 0), SOME(1, S, NAME(1), 0), SOME(0, R, NAME(2), 0))},
     {{ROWS(ROOT(0, 0), SOME(0, R, NAME(2), 0), SOME(1, S, NAME(1), 0))},
      {ROWS(ROOT(0, 0), ALL(0, R, 0, 0), SOME(1, S, NAME(1), 0))},
      {ROWS(ROOT(0, 0), SOME(0, R, 0, 0), SOME(1, S, 0, 0))}},
     CARD(0) | CARD(1)},
    /* 56, 57: excluded names; another role and another kind. */
    {{ROWS(ROOT(NAME(1), NAME(2) | NAME(63)))},
     {{ROWS(ROOT(0, NAME(2)))}, {ROWS(ROOT(0, NAME(1)))}, {ROWS(ROOT(NAME(1), NAME(63)))}, {ROWS(ROOT(NAME(63), 0))}},
     CARD(0) | CARD(2)},
    {{ROWS(ROOT(0, 0), SOME(0, R, NAME(1), 0), ALL(0, S, NAME(1), 0))},
     {{ROWS(ROOT(0, 0), SOME(0, S, NAME(1), 0))},
      {ROWS(ROOT(0, 0), ALL(0, R, NAME(1), 0))},
      {ROWS(ROOT(0, 0), SOME(0, R, NAME(1), 0))},
      {ROWS(ROOT(0, 0), ALL(0, S, NAME(1), 0))}},
     CARD(2) | CARD(3)},
};

static void put_card(const struct row *rows, size_t count)
{
    static struct picture card;

    rows_picture(&card, rows, count);
    book_card(&lookup.book, &card);
}

static void test_cases(void)
{
    const struct row_list *card;
    unsigned int i;

    for (i = 0; i < sizeof cases / sizeof cases[0]; i++) {
        row_list_picture(&lookup.case_picture, &cases[i].looked_up);
        book_clear(&lookup.book);
        for (card = cases[i].cards; card->count > 0; card++)
            put_card(card->rows, card->count);
        book_end(&lookup.book);
        most_specific_check(&lookup, word_cards(cases[i].found), i);
    }
}

/* A root with these names as the case. */
static void begin(uint64_t wanted)
{
    rows_picture(&lookup.case_picture, ROWS(ROOT(wanted, 0)));
    book_clear(&lookup.book);
}

/* Up to as many cards as allowed, none of which subsumes another. */
static void test_counts(void)
{
    unsigned int count, n;

    for (count = 0; count <= CARDS; count++) {
        begin(ALL_CARDS);
        for (n = 0; n < count; n++)
            put_card(ROWS(ROOT(NAME(n), 0)));
        book_end(&lookup.book);
        most_specific_check(&lookup, word_cards(count < CARDS ? CARD(count) - 1 : ALL_CARDS), count);
    }
    lookup.book.length -= ZUVAROPY_HEAD_BYTES;
    put_card(ROWS(ROOT(NAME(CARDS), 0)));
    book_end(&lookup.book);
    most_specific_check(&lookup, word_book(), count);
}

/* A full book of cards with these names, and the cards of it that are found. */
static void check_names(const uint64_t *names, uint32_t found, unsigned long at)
{
    unsigned int n;

    begin(ALL_CARDS);
    for (n = 0; n < CARDS; n++)
        put_card(ROWS(ROOT(names[n], 0)));
    book_end(&lookup.book);
    most_specific_room(&lookup, ZUVAROPY_WORK_BYTES, 0xA5, word_cards(found), at);
}

/* Cards that lack no name, one, two and so on, each number in turn as often: those that lack none are found. */
static void check_chain(unsigned int step, unsigned int turn, unsigned int often)
{
    uint64_t names[CARDS];
    uint32_t found = 0;
    unsigned int n, lacking;

    for (n = 0; n < CARDS; n++) {
        lacking = (n * step + turn) % CARDS / often;
        names[n] = ALL_CARDS >> lacking;
        if (lacking == 0)
            found |= CARD(n);
    }
    check_names(names, found, CARDS * step + turn);
}

/* Chains of 32 cards, of 16 that are there twice and so on down to one that is there 32 times: upwards, downwards and
 * in many other orders. The most specific ones are at every place. */
static void test_chains(void)
{
    unsigned int turn, step, often;

    for (often = 1; often <= CARDS; often *= 2)
        for (step = 1; step < CARDS; step += 2)
            for (turn = 0; turn < CARDS; turn++)
                check_chain(step, turn, often);
}

/* Two cards among others of which none subsumes another: one more specific than the other; both the same; so and more
 * specific than the rest; so and more general. */
static void check_places(unsigned int place, unsigned int other)
{
    const unsigned long at = CARDS * place + other;
    uint64_t names[CARDS];
    unsigned int n;

    for (n = 0; n < CARDS; n++)
        names[n] = NAME(n);
    names[place] = NAME(place) | NAME(other);
    check_names(names, ALL_CARDS & ~CARD(other), at);
    names[place] = NAME(other);
    check_names(names, ALL_CARDS, at);
    names[place] = names[other] = ALL_CARDS;
    check_names(names, CARD(place) | CARD(other), at);
    names[place] = names[other] = 0;
    check_names(names, ALL_CARDS & ~CARD(place) & ~CARD(other), at);
}

/* Every two places. */
static void test_places(void)
{
    unsigned int place, other;

    for (place = 0; place < CARDS; place++)
        for (other = 0; other < CARDS; other++)
            if (place != other)
                check_places(place, other);
}

/* So many cards in turn, again and again; card 0 of them may be more general than the rest. */
static void check_turns(unsigned int turns, uint64_t general)
{
    uint64_t names[CARDS];
    uint32_t found = 0;
    unsigned int n;

    for (n = 0; n < CARDS; n++) {
        names[n] = n % turns != 0 ? NAME(n % turns) : general;
        if (turns == 1 || names[n] != 0)
            found |= CARD(n);
    }
    check_names(names, found, turns);
}

static void test_turns(void)
{
    unsigned int turns;

    for (turns = 1; turns <= CARDS; turns++) {
        check_turns(turns, NAME(0));
        check_turns(turns, 0);
    }
}

/* One card of 32 subsumes the case, and one alone does not: at every place. */
static void test_single(void)
{
    unsigned int place, n;

    for (place = 0; place < CARDS; place++) {
        begin(NAME(place));
        for (n = 0; n < CARDS; n++)
            put_card(ROWS(ROOT(NAME(n), 0)));
        book_end(&lookup.book);
        most_specific_check(&lookup, word_cards(CARD(place)), place);
        rows_picture(&lookup.case_picture, ROWS(ROOT(ALL_CARDS & ~NAME(place), 0)));
        most_specific_check(&lookup, word_cards(ALL_CARDS & ~CARD(place)), place);
    }
}

/* Every byte of one answer. */
static void test_bytes(void)
{
    static const uint8_t one[51] = {
        0x10, 0, 21, 0, 0, 0, 0, 0, 0, 0, 0, 0, 0, 0, 0, 0x08, 0, 0, 0, 0, 0, 0, 0, 0, /* row 0: name 3 */
        0x10, 0, 21, 0, 0, 1, 8, 0, 0, 0, 0, 0, 0, 0, 0, 0x10, 0, 0, 0, 0, 0, 0, 0, 0, /* row 1: some 8, name 4 */
        0x2F, 0, 0,
    };
    static const uint8_t book[87] = {
        0x51, 0, 27,                                                                   /* card 0 */
        0x10, 0, 21, 0, 0, 0, 0, 0, 0, 0, 0, 0, 0, 0, 0, 0x00, 0, 0, 0, 0, 0, 0, 0, 0, /* row 0 */
        0x2F, 0, 0,                                                                    /* its end */
        0x51, 0, 51,                                                                   /* card 1 */
        0x10, 0, 21, 0, 0, 0, 0, 0, 0, 0, 0, 0, 0, 0, 0, 0x00, 0, 0, 0, 0, 0, 0, 0, 0, /* row 0 */
        0x10, 0, 21, 0, 0, 1, 8, 0, 0, 0, 0, 0, 0, 0, 0, 0x10, 0, 0, 0, 0, 0, 0, 0, 0, /* row 1: some 8, name 4 */
        0x2F, 0, 0,                                                                    /* its end */
        0x2F, 0, 0,
    };
    static uint8_t work[12294 + 10];
    size_t i;

    memset(work, 0xA5, sizeof work);
    CHECK_WORD(call_most_specific(one, 51, book, 87, work, sizeof work), UINT64_C(0x0100000000000002), 0);
    for (i = 0; i < 12294 && work[i] == 0; i++)
        ;
    CHECK(i == 12294);
    for (; i < sizeof work && work[i] == 0xA5; i++)
        ;
    CHECK(i == sizeof work);
}

int main(void)
{
    test_cases();
    test_counts();
    test_chains();
    test_places();
    test_turns();
    test_single();
    test_bytes();
    return check_summary("most specific");
}

/*
 * Unfolding, by hand: what a row gains, how often and in which order, and what
 * the calls then say. The tables are written down here; the order of some-
 * successors of one role in them is that of the rows of the unfolded picture.
 */

#include "calls.h"
#include "check.h"
#include "lcs.h"
#include "most_specific.h"
#include "rows.h"
#include "subsumes.h"
#include "under.h"
#include "verify.h"

#include <string.h>

#define R 8
#define S 9
#define T 10

static struct under u;

static void begin(void)
{
    book_clear(&u.definitions);
}

static void define(unsigned int name, const struct row *rows, size_t count)
{
    static struct picture p;

    rows_picture(&p, rows, count);
    book_definition(&u.definitions, name, &p);
}

static void end(void)
{
    book_end(&u.definitions);
}

/* The normal table of a picture under the definitions. */
static void check_table(const struct row *table, size_t count, unsigned long at)
{
    static struct picture wanted;

    rows_picture(&wanted, table, count);
    under_check_table(&u, &wanted, at);
}

/* A row loses the name and gains the names of the root, and its successors, after its own. */
static void test_gained(void)
{
    begin();
    define(5, ROWS(ROOT(NAME(1), NAME(2)), SOME(0, R, NAME(3), 0), ALL(1, S, NAME(4), 0)));
    end();
    rows_picture(&u.first, ROWS(ROOT(NAME(5) | NAME(6), NAME(7)), SOME(0, R, NAME(8), 0)));
    check_table(ROWS(ROOT(NAME(1) | NAME(6), NAME(2) | NAME(7)), SOME(0, R, NAME(8), 0), SOME(0, R, NAME(3), 0),
                     ALL(2, S, NAME(4), 0)),
                0);
    rows_picture(&u.first, ROWS(ROOT(0, 0), SOME(0, R, NAME(5), 0), SOME(0, R, NAME(9), 0)));
    check_table(ROWS(ROOT(0, 0), SOME(0, R, NAME(1), NAME(2)), SOME(1, R, NAME(3), 0), ALL(2, S, NAME(4), 0),
                     SOME(0, R, NAME(9), 0)),
                1);
    /* What is not mentioned changes nothing. */
    rows_picture(&u.first, ROWS(ROOT(NAME(6), NAME(7)), SOME(0, R, NAME(8), 0)));
    check_table(ROWS(ROOT(NAME(6), NAME(7)), SOME(0, R, NAME(8), 0)), 2);
    /* Each row takes it in for itself. */
    rows_picture(&u.first, ROWS(ROOT(NAME(5), 0), SOME(0, T, NAME(5), 0)));
    check_table(ROWS(ROOT(NAME(1), NAME(2)), SOME(0, R, NAME(3), 0), ALL(1, S, NAME(4), 0),
                     SOME(0, T, NAME(1), NAME(2)), SOME(3, R, NAME(3), 0), ALL(4, S, NAME(4), 0)),
                3);
}

/* Definitions by rising name, also where the root of a higher one wants the lower. */
static void test_rising(void)
{
    begin();
    define(7, ROWS(ROOT(0, 0), SOME(0, R, NAME(20), 0)));
    define(3, ROWS(ROOT(0, 0), SOME(0, R, NAME(21), 0), SOME(0, R, NAME(22), 0)));
    define(5, ROWS(ROOT(NAME(3), 0), SOME(0, R, NAME(23), 0)));
    end();
    rows_picture(&u.first, ROWS(ROOT(NAME(7) | NAME(3), 0)));
    check_table(ROWS(ROOT(0, 0), SOME(0, R, NAME(21), 0), SOME(0, R, NAME(22), 0), SOME(0, R, NAME(20), 0)), 0);
    rows_picture(&u.first, ROWS(ROOT(NAME(5), 0)));
    check_table(ROWS(ROOT(0, 0), SOME(0, R, NAME(21), 0), SOME(0, R, NAME(22), 0), SOME(0, R, NAME(23), 0)), 1);
    rows_picture(&u.first, ROWS(ROOT(NAME(7) | NAME(5), 0), SOME(0, R, NAME(24), 0)));
    check_table(ROWS(ROOT(0, 0), SOME(0, R, NAME(24), 0), SOME(0, R, NAME(21), 0), SOME(0, R, NAME(22), 0),
                     SOME(0, R, NAME(23), 0), SOME(0, R, NAME(20), 0)),
                2);
}

/* One row takes in a definition once only, also if two roots want it; another row takes it in again. */
static void test_once(void)
{
    begin();
    define(5, ROWS(ROOT(NAME(7) | NAME(1), 0)));
    define(6, ROWS(ROOT(NAME(7) | NAME(2), 0)));
    define(7, ROWS(ROOT(NAME(3), 0), SOME(0, R, NAME(20), 0)));
    end();
    rows_picture(&u.first, ROWS(ROOT(NAME(5) | NAME(6) | NAME(7), 0)));
    check_table(ROWS(ROOT(NAME(1) | NAME(2) | NAME(3), 0), SOME(0, R, NAME(20), 0)), 0);
    rows_picture(&u.first, ROWS(ROOT(NAME(5), 0), SOME(0, S, NAME(6), 0)));
    check_table(ROWS(ROOT(NAME(1) | NAME(3), 0), SOME(0, R, NAME(20), 0), SOME(0, S, NAME(2) | NAME(3), 0),
                     SOME(2, R, NAME(20), 0)),
                1);
}

/* What a gained row gains comes after all that rows before it gain: rows that are merged tell the order. Row 1 gains
 * row 3, row 2 gains rows 4 and 5, and then row 3 gains row 6. */
static void test_queue(void)
{
    begin();
    define(5, ROWS(ROOT(0, 0), ALL(0, S, NAME(7), 0)));
    define(6, ROWS(ROOT(0, 0), SOME(0, S, 0, 0), SOME(1, T, NAME(22), 0)));
    define(7, ROWS(ROOT(0, 0), SOME(0, T, NAME(23), 0)));
    end();
    rows_picture(&u.first, ROWS(ROOT(0, 0), ALL(0, R, NAME(5), 0), SOME(0, R, NAME(6), 0)));
    check_table(ROWS(ROOT(0, 0), ALL(0, R, 0, 0), ALL(1, S, 0, 0), SOME(2, T, NAME(23), 0), SOME(0, R, 0, 0),
                     ALL(4, S, 0, 0), SOME(5, T, NAME(23), 0), SOME(4, S, 0, 0), SOME(7, T, NAME(22), 0),
                     SOME(7, T, NAME(23), 0)),
                0);
}

/* A marked root marks the row; names clash with those of the row; and rows below a mark are counted by 14. */
static void test_marked(void)
{
    static struct picture wide;

    begin();
    define(5, ROWS({0, ZUVAROPY_KIND_ROOT, 0, 1, NAME(1), 0}, SOME(0, R, NAME(3), 0)));
    define(6, ROWS(ROOT(0, NAME(1))));
    picture_spread(&wide, 15, 15);
    picture_end(&wide);
    picture_value(&wide, 0)[ZUVAROPY_IMPOSSIBLE_AT] = 1;
    book_definition(&u.definitions, 7, &wide);
    end();
    rows_picture(&u.first, ROWS(ROOT(NAME(5), 0)));
    check_table(ROWS(ROOT_NONE), 0);
    rows_picture(&u.first, ROWS(ROOT(NAME(2), 0), ALL(0, R, NAME(5), 0)));
    check_table(ROWS(ROOT(NAME(2), 0), ALL_NONE(0, R)), 1);
    rows_picture(&u.first, ROWS(ROOT(NAME(2), 0), SOME(0, R, NAME(5), 0)));
    check_table(ROWS(ROOT_NONE), 2);
    rows_picture(&u.first, ROWS(ROOT(NAME(6), 0), SOME(0, R, 0, 0)));
    check_table(ROWS(ROOT(0, NAME(1)), SOME(0, R, 0, 0)), 3);
    rows_picture(&u.first, ROWS(ROOT(NAME(6) | NAME(1), 0)));
    check_table(ROWS(ROOT_NONE), 4);
    rows_picture(&u.first, ROWS(ROOT(NAME(7), 0)));
    CHECK_WORD(under_call(&u, UNDER_NORMALIZE, 5), word_refusal(ZUVAROPY_QUESTION_MERGED, 0), 5);
}

/* Every odd name once, in no order. */
static unsigned int chained(unsigned int n)
{
    return 2 * (n * 11 % ZUVAROPY_MAX_DEFINITIONS) + 1;
}

/* A name that says nothing; a name for another; and as many as allowed in a chain of roots. */
static void test_roots(void)
{
    struct row root = ROOT(0, 0);
    unsigned int n;

    begin();
    define(5, ROWS(ROOT(0, 0)));
    define(63, ROWS(ROOT(NAME(0), 0)));
    end();
    rows_picture(&u.first, ROWS(ROOT(NAME(5), 0), ALL(0, R, NAME(5), 0), SOME(0, R, NAME(63), 0)));
    check_table(ROWS(ROOT(0, 0), SOME(0, R, NAME(0), 0)), 0);
    begin();
    for (n = 0; n < ZUVAROPY_MAX_DEFINITIONS; n++) {
        root.wanted = NAME(2 * n) | (n + 1 < ZUVAROPY_MAX_DEFINITIONS ? NAME(chained(n + 1)) : 0);
        define(chained(n), &root, 1);
    }
    end();
    rows_picture(&u.first, ROWS(ROOT(NAME(1), 0)));
    check_table(ROWS(ROOT(UINT64_C(0x5555555555555555), 0)), 1);
}

/* "Belt side fault" is defined once and used in two cards: belt, and some part 3 that is a fault at the side. */
#define BELT 41
#define SIDE 42
#define FAULT 43
#define LAMP 44
#define BELT_SIDE_FAULT 40
#define PART 3

static void define_belt(void)
{
    begin();
    define(BELT_SIDE_FAULT, ROWS(ROOT(NAME(BELT), 0), SOME(0, PART, NAME(SIDE) | NAME(FAULT), 0)));
    end();
}

static void add_card(const struct row *rows, size_t count)
{
    static struct picture card;

    rows_picture(&card, rows, count);
    book_card(&u.book, &card);
}

static void test_belt(void)
{
    define_belt();
    book_clear(&u.book);
    add_card(ROWS(ROOT(NAME(BELT_SIDE_FAULT), 0)));
    add_card(ROWS(ROOT(NAME(BELT_SIDE_FAULT) | NAME(LAMP), 0)));
    add_card(ROWS(ROOT(NAME(BELT), 0)));
    add_card(ROWS(ROOT(NAME(BELT) | NAME(LAMP), 0), SOME(0, PART, NAME(SIDE) | NAME(FAULT), 0)));
    book_end(&u.book);
    /* Spelled out, or by its name: the same. Cards 1 and 3 mean the same, too. */
    rows_picture(&u.first, ROWS(ROOT(NAME(BELT), 0), SOME(0, PART, NAME(SIDE) | NAME(FAULT) | NAME(7), 0)));
    CHECK_WORD(under_call(&u, UNDER_MOST_SPECIFIC, 0), word_cards(1 << 0), 0);
    rows_picture(&u.first, ROWS(ROOT(NAME(BELT_SIDE_FAULT) | NAME(7), 0)));
    CHECK_WORD(under_call(&u, UNDER_MOST_SPECIFIC, 1), word_cards(1 << 0), 1);
    rows_picture(&u.first, ROWS(ROOT(NAME(BELT_SIDE_FAULT) | NAME(LAMP), 0)));
    CHECK_WORD(under_call(&u, UNDER_MOST_SPECIFIC, 2), word_cards(1 << 1 | 1 << 3), 2);
    rows_picture(&u.first, ROWS(ROOT(NAME(BELT), 0), SOME(0, PART, NAME(SIDE), 0)));
    CHECK_WORD(under_call(&u, UNDER_MOST_SPECIFIC, 3), word_cards(1 << 2), 3);
    /* Without the definition the name is one like any other. */
    begin();
    end();
    rows_picture(&u.first, ROWS(ROOT(NAME(BELT), 0), SOME(0, PART, NAME(SIDE) | NAME(FAULT) | NAME(LAMP), 0)));
    CHECK_WORD(under_call(&u, UNDER_MOST_SPECIFIC, 4), word_cards(1 << 2), 4);
}

/* Verdicts both ways, and the map of what is spelled out: rows of the unfolded pictures' normal tables. */
static void test_verdicts(void)
{
    static struct inputs in;

    define_belt();
    rows_picture(&in.first, ROWS(ROOT(NAME(BELT_SIDE_FAULT) | NAME(LAMP), 0), SOME(0, PART, 0, 0)));
    rows_picture(&in.second, ROWS(ROOT(NAME(BELT), 0), SOME(0, PART, NAME(FAULT), 0)));
    calls_under(u.definitions.bytes, u.definitions.length);
    subsumes_check(&in, word_yes(2), 0);
    evidence_map(&in.evidence, IMAGES(0, 2));
    verify_check(&in, word_map_taken(), 1);
    evidence_map(&in.evidence, IMAGES(0, 1));
    verify_check(&in, word_evidence(ZUVAROPY_QUESTION_LABEL), 2);
    evidence_map(&in.evidence, IMAGES(0));
    verify_check(&in, word_evidence(ZUVAROPY_QUESTION_FORM), 3);
    rows_picture(&in.second, ROWS(ROOT(NAME(BELT_SIDE_FAULT), 0)));
    subsumes_check(&in, word_yes(2), 4);
    rows_picture(&in.first, ROWS(ROOT(NAME(BELT), 0), SOME(0, PART, NAME(SIDE) | NAME(FAULT), 0)));
    subsumes_check(&in, word_yes(2), 5);
    rows_picture(&in.first, ROWS(ROOT(NAME(BELT), 0), SOME(0, PART, NAME(SIDE), 0)));
    subsumes_check(&in, word_no(), 6);
    calls_under_none();
    /* Without definitions the name cannot be spelled out. */
    rows_picture(&in.first, ROWS(ROOT(NAME(BELT), 0), SOME(0, PART, NAME(SIDE) | NAME(FAULT), 0)));
    subsumes_check(&in, word_no(), 7);
}

/* A refutation: whether its individuals have defined names is not asked. */
static void test_refutation(void)
{
    static struct inputs in;
    unsigned int names;

    define_belt();
    rows_picture(&in.first, ROWS(ROOT(NAME(BELT_SIDE_FAULT), 0)));
    rows_picture(&in.second, ROWS(ROOT(NAME(BELT_SIDE_FAULT) | NAME(LAMP), 0)));
    calls_under(u.definitions.bytes, u.definitions.length);
    for (names = 0; names < 4; names++) {
        const uint64_t one = names & 1 ? NAME(BELT_SIDE_FAULT) : 0, other = names & 2 ? NAME(BELT_SIDE_FAULT) : 0;

        evidence_clear(&in.evidence);
        evidence_individual(&in.evidence, 0, 0, NAME(BELT) | one);
        evidence_individual(&in.evidence, 0, PART, NAME(SIDE) | NAME(FAULT) | other);
        evidence_end(&in.evidence);
        verify_check(&in, word_refutation_taken(), names);
        evidence_clear(&in.evidence);
        evidence_individual(&in.evidence, 0, 0, NAME(BELT_SIDE_FAULT) | one);
        evidence_end(&in.evidence);
        verify_check(&in, word_evidence(ZUVAROPY_QUESTION_INSTANCE), names);
        evidence_clear(&in.evidence);
        evidence_individual(&in.evidence, 0, 0, NAME(BELT) | NAME(LAMP) | one);
        evidence_individual(&in.evidence, 0, PART, NAME(SIDE) | NAME(FAULT) | other);
        evidence_end(&in.evidence);
        verify_check(&in, word_evidence(ZUVAROPY_QUESTION_REFUTED), names);
    }
    calls_under_none();
}

/* The common picture is that of the unfolded pictures, and has no defined name. */
static void test_common(void)
{
    static struct pair pair;
    static struct picture wanted;

    define_belt();
    rows_picture(&pair.first, ROWS(ROOT(NAME(BELT_SIDE_FAULT) | NAME(LAMP), 0)));
    rows_picture(&pair.second, ROWS(ROOT(NAME(BELT), 0), SOME(0, PART, NAME(FAULT), 0)));
    rows_picture(&wanted, ROWS(ROOT(NAME(BELT), 0), SOME(0, PART, NAME(FAULT), 0)));
    calls_under(u.definitions.bytes, u.definitions.length);
    lcs_check(&pair, word_length(2), 0);
    CHECK(pair.common.length == wanted.length && memcmp(pair.common.bytes, wanted.bytes, wanted.length) == 0);
    rows_picture(&pair.second, ROWS(ROOT(NAME(BELT_SIDE_FAULT), 0)));
    rows_picture(&wanted, ROWS(ROOT(NAME(BELT), 0), SOME(0, PART, NAME(SIDE) | NAME(FAULT), 0)));
    lcs_check(&pair, word_length(2), 1);
    CHECK(pair.common.length == wanted.length && memcmp(pair.common.bytes, wanted.bytes, wanted.length) == 0);
    calls_under_none();
}

int main(void)
{
    test_gained();
    test_rising();
    test_once();
    test_queue();
    test_marked();
    test_roots();
    test_belt();
    test_verdicts();
    test_refutation();
    test_common();
    return check_summary("definitions");
}

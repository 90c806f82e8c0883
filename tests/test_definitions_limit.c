/*
 * Questions 27, 29 and 30: which picture or definition is named, and how many
 * rows and how much depth an unfolded picture may have.
 */

#include "check.h"
#include "most_specific.h"
#include "rows.h"
#include "under.h"
#include "verify.h"

#define R 8

static struct under u;
static struct picture p;

static void begin(void)
{
    book_clear(&u.definitions);
}

/* A fan of so many rows, or a chain of so many edges, whose row wants and excludes these names. */
static void make_fan(struct picture *made, unsigned int rows, unsigned int row, uint64_t wanted, uint64_t excluded)
{
    unsigned int n;

    picture_clear(made);
    for (n = 0; n < rows; n++) {
        picture_row(made, 0, n == 0 ? ZUVAROPY_KIND_ROOT : ZUVAROPY_KIND_EXISTS, 0);
        if (n == row)
            picture_label(made, wanted, excluded, 0);
    }
    picture_end(made);
}

static void make_chain(struct picture *made, unsigned int edges, unsigned int row, uint64_t wanted)
{
    unsigned int n;

    picture_clear(made);
    for (n = 0; n <= edges; n++) {
        picture_row(made, n == 0 ? 0 : n - 1, n == 0 ? ZUVAROPY_KIND_ROOT : ZUVAROPY_KIND_EXISTS, 0);
        if (n == row)
            picture_label(made, wanted, 0, 0);
    }
    picture_end(made);
}

/* The word of a refusal of one of the pictures: 0 for the first, 1 for the second. */
static uint64_t word_picture(unsigned int which, unsigned int question)
{
    return which == 0 ? word_refusal(question, 0) : word_second(question, 0);
}

/* The calls on two pictures, and the lookup with the second as the last of three cards. */
static void check_pair(unsigned int which, unsigned int question, unsigned long at)
{
    static struct picture small;
    unsigned int call;

    make_fan(&small, 1, 0, 0, 0);
    book_clear(&u.book);
    book_card(&u.book, &small);
    book_card(&u.book, &small);
    book_card(&u.book, &u.second);
    book_end(&u.book);
    evidence_clear(&u.evidence);
    for (call = UNDER_SUBSUMES; call <= UNDER_VERIFY; call++)
        if (question != 0)
            CHECK_WORD(under_call(&u, call, at), word_picture(which, question), at);
        else
            CHECK(zuvaropy_question(under_call(&u, call, at)) <= ZUVAROPY_QUESTION_FORM);
    if (question != 0)
        CHECK_WORD(under_call(&u, UNDER_MOST_SPECIFIC, at),
                   which == 0 ? word_refusal(question, 0) : word_card(2, question, 0), at);
    else
        CHECK(zuvaropy_outcome(under_call(&u, UNDER_MOST_SPECIFIC, at)) == ZUVAROPY_OUTCOME_YES);
    if (which == 0 && question != 0)
        CHECK_WORD(under_call(&u, UNDER_NORMALIZE, at), word_refusal(question, 0), at);
}

/* One picture or the other is made, and the one beside it is small. */
static struct picture *beside(unsigned int which)
{
    make_fan(which == 0 ? &u.second : &u.first, 1, 0, 0, 0);
    return which == 0 ? &u.first : &u.second;
}

/* Own rows and gained ones: 256 pass, 257 do not; in one step, from any row. */
static void test_rows(void)
{
    unsigned int own, which, row;

    for (which = 0; which < 2; which++)
        for (own = 1; own <= 255; own += own < 3 || own > 252 ? 1 : 50)
            for (row = 0; row < 2; row++) {
                begin();
                make_fan(&p, 257 - own, 0, 0, 0);
                book_definition(&u.definitions, 5, &p);
                book_end(&u.definitions);
                make_fan(beside(which), own, own > 1 ? row : 0, NAME(5), 0);
                check_pair(which, 0, own);
                make_fan(beside(which), own + 1, row, NAME(5), 0);
                check_pair(which, 29, own);
            }
}

/* In several steps: each definition's last row wants the next, so that rows are gained by gained rows. */
static void test_steps(void)
{
    unsigned int n, more;

    for (more = 0; more < 2; more++) {
        begin();
        for (n = 0; n < 10; n++) {
            make_fan(&p, n == 9 ? 25 + more : 26, n == 9 ? 0 : 25, n == 9 ? 0 : NAME(n + 1), 0);
            book_definition(&u.definitions, n, &p);
        }
        book_end(&u.definitions);
        make_fan(&u.first, 7, 6, NAME(0), 0); /* 7 + 9 * 25 + 24 rows */
        make_fan(&u.second, 1, 0, 0, 0);
        check_pair(0, more ? 29 : 0, more);
        CHECK_WORD(under_call(&u, UNDER_NORMALIZE, more), more ? word_refusal(29, 0) : word_length(256), more);
    }
}

/* 32 definitions, each of which takes the next in twice: some 2^32 rows are not made. */
static void test_doubling(void)
{
    unsigned int n;

    begin();
    for (n = 0; n < ZUVAROPY_MAX_DEFINITIONS; n++) {
        rows_picture(&p, ROWS(ROOT(0, 0), SOME(0, R, n < 31 ? NAME(n + 1) : 0, 0),
                              SOME(0, R, n < 31 ? NAME(n + 1) : 0, 0)));
        book_definition(&u.definitions, n, &p);
    }
    book_end(&u.definitions);
    make_fan(&u.first, 1, 0, NAME(0), 0);
    make_fan(&u.second, 1, 0, 0, 0);
    check_pair(0, 29, 0);
    make_fan(&u.first, 1, 0, NAME(25), 0); /* 1 + 2 + 4 + .. + 128 rows; but definition 0 is too large */
    under_check_all(&u, word_definition(0, 29, 0), 1);
}

/* Depth 12 passes, 13 does not: own edges and gained ones. */
static void test_depth(void)
{
    unsigned int own, which;

    for (which = 0; which < 2; which++)
        for (own = 0; own <= 12; own++) {
            begin();
            make_chain(&p, 12 - own, 0, 0);
            book_definition(&u.definitions, 5, &p);
            book_end(&u.definitions);
            make_chain(beside(which), own, own, NAME(5));
            check_pair(which, 0, own);
            if (own < 12) {
                make_chain(beside(which), own + 1, own + 1, NAME(5));
                check_pair(which, 30, own);
            }
        }
}

/* Names by the end of a chain, twelve times one edge more: in steps. */
static void test_depth_in_steps(void)
{
    unsigned int n, edges;

    for (edges = 11; edges <= 13; edges++) {
        begin();
        for (n = 0; n < edges; n++) {
            make_chain(&p, 1, 1, n + 1 < edges ? NAME(n + 1) : 0);
            book_definition(&u.definitions, n, &p);
        }
        book_end(&u.definitions);
        make_fan(&u.first, 1, 0, NAME(edges == 13), 0);
        make_fan(&u.second, 1, 0, 0, 0);
        if (edges == 13)
            under_check_all(&u, word_definition(0, 30, 0), edges);
        else
            check_pair(0, 0, edges);
        make_fan(&u.first, 1, 0, NAME(0), 0);
        check_pair(0, edges == 13 ? 30 : 0, edges);
    }
}

/* A definition that a question refuses, at each place, though nothing mentions it; and two of them: the first. */
static void make_places(unsigned int question, unsigned int place, unsigned int also)
{
    unsigned int n;

    begin();
    for (n = 0; n < ZUVAROPY_MAX_DEFINITIONS; n++) {
        make_fan(&p, 2, 0, 0, 0);
        if ((n == place || n == also) && question == 27)
            make_fan(&p, 3, 2, 0, NAME(5));
        if ((n == place || n == also) && question == 29)
            make_fan(&p, 256, 7, NAME((n + 1) % 32), 0);
        if ((n == place || n == also) && question == 30)
            make_chain(&p, 12, 12, NAME((n + 1) % 32));
        book_definition(&u.definitions, n, &p);
    }
    book_end(&u.definitions);
}

static void test_places(void)
{
    unsigned int question, place;

    make_fan(&u.first, 1, 0, 0, 0);
    make_fan(&u.second, 1, 0, 0, 0);
    book_copies(&u.book, &u.first, 2);
    for (question = 27; question <= 30; question++)
        for (place = 0; place < ZUVAROPY_MAX_DEFINITIONS && question != 28; place++) {
            make_places(question, place, place + 2);
            under_check_all(&u, word_definition(place, question, 0), place);
        }
}

/* Cards at each place. */
static void make_card(unsigned int question)
{
    make_fan(&p, question == 29 ? 250 : 3, 1, question == 27 ? 0 : NAME(5), question == 27 ? NAME(5) : 0);
    if (question == 30)
        make_chain(&p, 12, 12, NAME(5));
}

static void test_cards(void)
{
    unsigned int question, place, n;
    static struct picture small;

    begin();
    make_fan(&p, 10, 0, 0, 0);
    book_definition(&u.definitions, 5, &p);
    book_end(&u.definitions);
    make_fan(&u.first, 1, 0, NAME(5), 0);
    make_fan(&small, 1, 0, NAME(5), 0);
    for (question = 27; question <= 30; question++)
        for (place = 0; place < ZUVAROPY_MAX_CARDS && question != 28; place++) {
            make_card(question);
            book_clear(&u.book);
            for (n = 0; n < ZUVAROPY_MAX_CARDS; n++)
                book_card(&u.book, n == place || n == place + 3 ? &p : &small);
            book_end(&u.book);
            CHECK_WORD(under_call(&u, UNDER_MOST_SPECIFIC, place), word_card(place, question, 0), place);
        }
}

/* 27: any row, any defined name; a name that is not defined may be excluded, also by a definition of the book. */
static void test_excluded(void)
{
    unsigned int name, which, row;

    for (name = 0; name < ZUVAROPY_NAMES; name++)
        for (which = 0; which < 2; which++) {
            begin();
            make_fan(&p, 2, 1, 0, NAME((name + 1) % 64));
            book_definition(&u.definitions, name, &p);
            book_end(&u.definitions);
            for (row = 0; row < 3; row++) {
                make_fan(beside(which), 3, row, 0, NAME(name));
                check_pair(which, 27, name);
                make_fan(beside(which), 3, row, NAME(name), ~(NAME(name)));
                check_pair(which, 0, name);
            }
            make_fan(beside(which), 1, 0, 0, 0);
            begin();
            make_fan(&p, 3, which, 0, NAME(name)); /* what it defines itself */
            book_definition(&u.definitions, name, &p);
            book_end(&u.definitions);
            under_check_all(&u, word_definition(0, 27, 0), name);
        }
}

/* Each question is asked of all before the next: the second is too wide, the first only too deep. */
static void test_each_first(void)
{
    begin();
    make_fan(&p, 250, 0, 0, 0);
    book_definition(&u.definitions, 5, &p);
    make_chain(&p, 12, 0, 0);
    book_definition(&u.definitions, 6, &p);
    book_end(&u.definitions);
    make_fan(&u.first, 2, 1, NAME(6), 0);
    make_fan(&u.second, 10, 1, NAME(5), 0);
    check_pair(1, 29, 0);
    make_fan(&u.second, 2, 1, NAME(6), 0);
    check_pair(0, 30, 1);
    /* So wide that its depth is never found. */
    make_fan(&u.first, 10, 1, NAME(5) | NAME(6), 0);
    check_pair(0, 29, 2);
}

int main(void)
{
    test_rows();
    test_steps();
    test_doubling();
    test_depth();
    test_depth_in_steps();
    test_places();
    test_cards();
    test_excluded();
    test_each_first();
    return check_summary("definitions, limit");
}

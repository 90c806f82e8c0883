/*
 * Questions 25, 26 and 28 of a book of definitions, and 2 to 13 of its pictures:
 * its form to the last byte, names that are defined twice, and rings. All calls
 * are made on each.
 */

#include "check.h"
#include "rows.h"
#include "under.h"

#define R 8

static struct under u;
static struct picture plain, other;

/* They want no name, so that any can be defined. */
static void make_given(void)
{
    rows_picture(&u.first, ROWS(ROOT(0, 0), SOME(0, R, 0, 0)));
    rows_picture(&u.second, ROWS(ROOT(0, 0)));
    rows_picture(&plain, ROWS(ROOT(0, 0), SOME(0, R, 0, 0)));
    book_copies(&u.book, &u.second, 2);
    evidence_map(&u.evidence, IMAGES(0));
}

static void begin(void)
{
    book_clear(&u.definitions);
}

/* No call refuses the definitions. */
static void check_taken(unsigned long at)
{
    unsigned int call;

    for (call = 0; call < UNDER_CALLS; call++)
        CHECK(zuvaropy_outcome(under_call(&u, call, at)) == ZUVAROPY_OUTCOME_YES);
}

static void check_form(unsigned long at)
{
    under_check_all(&u, word_definitions(25), at);
}

static void make_two(void)
{
    begin();
    book_definition(&u.definitions, 0, &plain);
    book_definition(&u.definitions, 63, &plain);
    book_end(&u.definitions);
}

/* Cut off anywhere it is no book; nor with bytes after its end. */
static void test_lengths(void)
{
    size_t whole;

    make_two();
    whole = u.definitions.length;
    check_taken(whole);
    for (u.definitions.length = 0; u.definitions.length < whole; u.definitions.length++)
        check_form((unsigned long)u.definitions.length);
    book_byte(&u.definitions, 0);
    check_form((unsigned long)whole + 1);
    begin();
    book_end(&u.definitions);
    check_taken(0);
    book_end(&u.definitions);
    check_form(6);
}

/* Every other tag, in the first field and in the last. */
static void test_tags(void)
{
    unsigned int tag;

    for (tag = 0; tag < 256; tag++) {
        make_two();
        u.definitions.bytes[0] = (uint8_t)tag;
        if (tag != ZUVAROPY_TAG_DEFINITION)
            check_form(tag);
        make_two();
        u.definitions.bytes[u.definitions.length - ZUVAROPY_HEAD_BYTES] = (uint8_t)tag;
        if (tag != ZUVAROPY_TAG_END)
            check_form(256 + tag);
    }
}

/* Names from 0 to 63, in the first field and in the last. */
static void test_names(void)
{
    unsigned int name, last;

    for (name = 0; name < 256; name++)
        for (last = 0; last < 2; last++) {
            begin();
            book_definition(&u.definitions, last ? 5 : name, &plain);
            book_definition(&u.definitions, last ? name : 5, &plain);
            book_end(&u.definitions);
            if (name >= 64)
                check_form(name);
            else if (name == 5)
                under_check_all(&u, word_definitions(26), name);
            else
                check_taken(name);
        }
}

/* Up to 32 fields. */
static void test_number(void)
{
    unsigned int count, n;

    for (count = 0; count <= ZUVAROPY_MAX_DEFINITIONS + 2; count++) {
        begin();
        for (n = 0; n < count; n++)
            book_definition(&u.definitions, 10 + n, &plain);
        book_end(&u.definitions);
        if (count <= 32)
            check_taken(count);
        else
            check_form(count);
    }
}

/* A value needs its name byte; the picture after it is not looked at by 25, whatever its length. */
static void test_values(void)
{
    static const unsigned int lengths[] = {0, 1, 2, 3, 23, 24, 300, 65534};
    unsigned int i, n;

    begin();
    book_head(&u.definitions, ZUVAROPY_TAG_DEFINITION, 0);
    book_end(&u.definitions);
    check_form(0);
    begin();
    book_definition(&u.definitions, 5, &plain);
    book_head(&u.definitions, ZUVAROPY_TAG_DEFINITION, 0);
    book_end(&u.definitions);
    check_form(1);
    for (i = 0; i < sizeof lengths / sizeof lengths[0]; i++) {
        begin();
        book_definition(&u.definitions, 5, &plain);
        book_head(&u.definitions, ZUVAROPY_TAG_DEFINITION, 1 + lengths[i]);
        book_byte(&u.definitions, 6);
        for (n = 0; n < lengths[i]; n++)
            book_byte(&u.definitions, 0);
        book_end(&u.definitions);
        under_check_all(&u, word_definition(1, lengths[i] < 3 ? 2 : 3, 0), lengths[i]);
        u.definitions.bytes[u.definitions.length - 1] = 1; /* an end field that has a length */
        check_form(lengths[i]);
    }
    /* The end field goes on by a byte that is there. */
    make_two();
    u.definitions.bytes[u.definitions.length - 1] = 1;
    book_byte(&u.definitions, 0);
    check_form(2);
}

/* The form of the last field comes before the first picture. */
static void test_form_first(void)
{
    begin();
    picture_refused(&other, 3);
    book_definition(&u.definitions, 5, &other);
    book_definition(&u.definitions, 64, &plain);
    book_end(&u.definitions);
    check_form(0);
}

/* 2 to 13 of each definition: its number, and row and byte counted from its picture, after the name byte. */
static void test_reading(void)
{
    unsigned int question, place, n;

    for (question = 2; question <= 13; question++)
        for (place = 0; place < ZUVAROPY_MAX_DEFINITIONS; place += place == 0 ? 1 : 10) {
            begin();
            picture_refused(&other, question);
            for (n = 0; n < ZUVAROPY_MAX_DEFINITIONS; n++)
                book_definition(&u.definitions, n, n == place || n == 31 ? &other : &plain);
            book_end(&u.definitions);
            under_check_all(&u, word_definition(place, question, picture_refused_row(question)), question);
        }
}

/* 26: any two of them, also where one of the two is not used. */
static void test_twice(void)
{
    unsigned int one, two, n;

    for (one = 0; one < ZUVAROPY_MAX_DEFINITIONS; one += 5)
        for (two = one + 1; two < ZUVAROPY_MAX_DEFINITIONS; two++) {
            begin();
            for (n = 0; n < ZUVAROPY_MAX_DEFINITIONS; n++)
                book_definition(&u.definitions, n == two ? one : n, &plain);
            book_end(&u.definitions);
            under_check_all(&u, word_definitions(26), one * 100 + two);
        }
}

/* A chain of so many definitions, from the first to the last, each wanted by row `row` of the one before; a ring if the
 * last wants the first. Rows 1 and 2 are there besides the root. */
static void make_chain(unsigned int count, unsigned int row, int ring)
{
    unsigned int n, next;

    begin();
    for (n = 0; n < count; n++) {
        next = n + 1 < count ? n + 1 : 0;
        rows_picture(&other, ROWS(ROOT(row == 0 ? NAME(next) : 0, 0), SOME(0, R, row == 1 ? NAME(next) : 0, 0),
                                  ALL(0, R, row == 2 ? NAME(next) : 0, 0)));
        if (n + 1 == count && !ring)
            rows_picture(&other, ROWS(ROOT(0, 0)));
        book_definition(&u.definitions, n, &other);
    }
    book_end(&u.definitions);
}

/* 28: rings of every length, by any row; the given pictures use them or not. Without a ring there is no refusal. */
static void test_rings(void)
{
    unsigned int count, row, used;

    for (used = 0; used < 2; used++) {
        rows_picture(&u.second, ROWS(ROOT(used ? NAME(0) : NAME(40), 0)));
        rows_picture(&u.first, ROWS(ROOT(NAME(40) | (used ? NAME(0) : 0), 0)));
        for (count = 1; count <= ZUVAROPY_MAX_DEFINITIONS; count++)
            for (row = 0; row < 3; row++) {
                make_chain(count, row, 1);
                under_check_all(&u, word_definitions(28), count * 10 + row);
            }
        for (count = 1; count <= ZUVAROPY_MAX_DEFINITIONS; count++) {
            make_chain(count, 0, 0);
            CHECK(zuvaropy_outcome(under_call(&u, UNDER_NORMALIZE, count)) == ZUVAROPY_OUTCOME_YES);
        }
    }
    make_given();
}

/* A ring that is reached from definitions outside it, before and behind them; and what looks like one, but is none. */
static void test_near_rings(void)
{
    unsigned int ring;

    for (ring = 0; ring < 2; ring++) {
        begin();
        rows_picture(&other, ROWS(ROOT(NAME(20) | NAME(21), 0)));
        book_definition(&u.definitions, 10, &other);
        rows_picture(&other, ROWS(ROOT(0, 0), SOME(0, R, NAME(22), 0)));
        book_definition(&u.definitions, 20, &other);
        rows_picture(&other, ROWS(ROOT(NAME(22), 0)));
        book_definition(&u.definitions, 21, &other);
        rows_picture(&other, ROWS(ROOT(ring ? NAME(21) : NAME(50), 0)));
        book_definition(&u.definitions, 22, &other);
        book_end(&u.definitions);
        if (ring)
            under_check_all(&u, word_definitions(28), ring);
        else
            check_taken(ring);
    }
}

int main(void)
{
    make_given();
    test_lengths();
    test_tags();
    test_names();
    test_number();
    test_values();
    test_form_first();
    test_reading();
    test_twice();
    test_rings();
    test_near_rings();
    return check_summary("definitions, form");
}

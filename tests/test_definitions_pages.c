/*
 * What is read of the definitions: a book that begins right after, or ends right
 * before, a page that may not be touched, and that may not be written.
 */

#include "check.h"
#include "pages.h"
#include "rows.h"
#include "under.h"

#define R 8

static struct under u;
static struct picture p;
static struct pages pages;

/* Each call with the book at both ends of the pages; the words are those that it has elsewhere. */
static void check_bounds(void)
{
    unsigned int call, last;

    for (call = 0; call < UNDER_CALLS; call++)
        for (last = 0; last < 2; last++) {
            const uint8_t *at = pages_place(&pages, u.definitions.bytes, u.definitions.length, (int)last);
            uint64_t word;

            pages_forbid_writing(&pages);
            word = under_call_at(&u, at, call, last);
            CHECK_WORD(word, under_call(&u, call, last), last);
        }
}

/* Definitions of one row and of several, one of which wants another; and pictures that use them. */
static void make_inputs(void)
{
    rows_picture(&u.first, ROWS(ROOT(NAME(7), 0), SOME(0, R, NAME(5), 0)));
    rows_picture(&u.second, ROWS(ROOT(NAME(5), 0)));
    book_copies(&u.book, &u.second, 2);
    evidence_map(&u.evidence, IMAGES(0));
    book_clear(&u.definitions);
    rows_picture(&p, ROWS(ROOT(NAME(1), 0)));
    book_definition(&u.definitions, 5, &p);
    rows_picture(&p, ROWS(ROOT(NAME(5), 0), SOME(0, R, NAME(2), 0)));
    book_definition(&u.definitions, 7, &p);
    book_end(&u.definitions);
}

/* Cut off anywhere; and with a last field that says more than is there. */
static void test_cuts(void)
{
    size_t length, whole;
    unsigned int more;

    make_inputs();
    check_bounds();
    whole = u.definitions.length;
    for (length = 0; length < whole; length++) {
        make_inputs();
        u.definitions.length = length;
        check_bounds();
    }
    for (more = 0; more < 300; more += 29) {
        make_inputs();
        u.definitions.length -= ZUVAROPY_HEAD_BYTES;
        book_head(&u.definitions, ZUVAROPY_TAG_DEFINITION, more);
        check_bounds();
    }
}

/* Each refusal, and each sort of picture that a definition can be cut off with: the book ends with that picture. */
static void test_refused(void)
{
    unsigned int question;

    for (question = 2; question <= 13; question++) {
        make_inputs();
        u.definitions.length -= ZUVAROPY_HEAD_BYTES;
        picture_refused(&p, question);
        book_definition(&u.definitions, 9, &p);
        book_end(&u.definitions);
        check_bounds();
    }
    for (question = 26; question <= 28; question++) {
        make_inputs();
        u.definitions.length -= ZUVAROPY_HEAD_BYTES;
        rows_picture(&p, ROWS(ROOT(question == 28 ? NAME(9) : 0, question == 27 ? NAME(5) : 0)));
        book_definition(&u.definitions, question == 26 ? 5 : 9, &p);
        book_end(&u.definitions);
        check_bounds();
    }
}

/* The longest book of pictures. */
static void test_long(void)
{
    unsigned int n;

    make_inputs();
    book_clear(&u.definitions);
    for (n = 0; n < ZUVAROPY_MAX_DEFINITIONS; n++) {
        picture_fan(&p, ZUVAROPY_MAX_ROWS);
        picture_end(&p);
        book_definition(&u.definitions, 63 - n, &p);
    }
    book_end(&u.definitions);
    CHECK(u.definitions.length == ZUVAROPY_MAX_DEFINITIONS_BYTES);
    check_bounds();
    rows_picture(&u.first, ROWS(ROOT(NAME(32), 0)));
    rows_picture(&u.second, ROWS(ROOT(NAME(63), 0)));
    check_bounds();
}

int main(void)
{
    pages_map(&pages, sizeof u.definitions.bytes);
    test_cuts();
    test_refused();
    test_long();
    return check_summary("definitions, pages");
}

/*
 * What is read: pictures whose last byte is the last before a page that may
 * not be touched, and whose first byte is the first after one. A byte read
 * too far, or any byte written, ends the program by a signal.
 */

#include "calls.h"
#include "check.h"
#include "pages.h"
#include "picture.h"

#include <string.h>

static struct picture p;
static struct pages pages;

static uint64_t validate_at(uint8_t *place)
{
    uint64_t word;

    pages_allow_writing(&pages);
    memcpy(place, p.bytes, p.length);
    pages_forbid_writing(&pages);
    word = call_validate(place, p.length);
    CHECK(memcmp(place, p.bytes, p.length) == 0);
    return word;
}

static void check_bounds(uint64_t wanted)
{
    CHECK_WORD(validate_at(pages_last(&pages, p.length)), wanted, p.length);
    CHECK_WORD(validate_at(pages.first), wanted, p.length);
}

/* A good picture, and all that is left of it when it is cut off. */
static void test_rows(unsigned int rows)
{
    size_t length;

    picture_mixed(&p, rows);
    check_bounds(word_rows(rows));
    for (length = 0; length < (size_t)ZUVAROPY_PICTURE_BYTES(rows); length++) {
        p.length = length;
        check_bounds(word_refusal(length % ZUVAROPY_ROW_BYTES < ZUVAROPY_HEAD_BYTES ? 2 : 6,
                                  (unsigned int)(length / ZUVAROPY_ROW_BYTES)));
    }
}

/* The file ends inside or right behind a field that is refused for its head. */
static void test_refused_field(unsigned int rows)
{
    unsigned int there;

    for (there = ZUVAROPY_HEAD_BYTES; there <= ZUVAROPY_ROW_BYTES; there++) {
        picture_fan(&p, rows + 1);
        p.length = (size_t)rows * ZUVAROPY_ROW_BYTES + there;
        picture_field(&p, rows)[0] = 0;
        check_bounds(word_refusal(3, rows));
        picture_field(&p, rows)[0] = ZUVAROPY_TAG_END;
        check_bounds(word_refusal(4, rows));
    }
}

static void test_too_many_rows(void)
{
    unsigned int there;

    for (there = ZUVAROPY_HEAD_BYTES; there <= ZUVAROPY_ROW_BYTES; there++) {
        picture_fan(&p, ZUVAROPY_MAX_ROWS + 1);
        p.length = (size_t)ZUVAROPY_MAX_ROWS * ZUVAROPY_ROW_BYTES + there;
        check_bounds(word_refusal(5, ZUVAROPY_MAX_ROWS));
    }
}

int main(void)
{
    pages_map(&pages, sizeof p.bytes);
    test_rows(1);
    test_rows(2);
    test_rows(16);
    test_rows(ZUVAROPY_MAX_ROWS);
    test_refused_field(0);
    test_refused_field(3);
    test_too_many_rows();
    return check_summary("bounds");
}

/*
 * What is read and written: result buffers of every length, and buffers that
 * begin right after, or end right before, a page that may not be touched.
 */

#include "calls.h"
#include "check.h"
#include "normal_reference.h"
#include "normalize.h"
#include "pages.h"
#include "picture.h"

#include <string.h>

#define TABLE ZUVAROPY_MAX_PICTURE_BYTES

static struct picture p;
static struct normal_reference reference;
static struct pages input, output;

static uint64_t wanted_word(void)
{
    normal_reference(&reference, p.bytes, p.length);
    return reference.word;
}

/* Too short by one byte or more: refused, whatever the picture, and nothing written. */
static void test_short_results(void)
{
    unsigned int question;
    size_t room;

    picture_refused(&p, 0);
    for (room = 0; room < TABLE; room++)
        normalize_check(&p, room, normalize_fills[room % 3], word_short(), NULL, room);
    for (question = ZUVAROPY_QUESTION_HEAD; question <= ZUVAROPY_QUESTION_MERGED; question++) {
        picture_refused(&p, question);
        for (room = 0; room < TABLE; room += 1 + room / 3)
            normalize_check(&p, room, 0xA5, word_short(), NULL, room);
        normalize_check(&p, TABLE - 1, 0xA5, word_short(), NULL, TABLE - 1);
    }
}

/* Just long enough, and longer; the bytes past the table keep their contents. */
static void test_long_results(void)
{
    unsigned int rows, i;
    size_t room;

    for (rows = 1; rows <= ZUVAROPY_MAX_ROWS; rows += 1 + rows / 4) {
        picture_fan(&p, rows);
        picture_end(&p);
        for (i = 0; i < sizeof normalize_fills; i++)
            for (room = TABLE; room <= NORMALIZE_ROOM; room += 1 + (room - TABLE))
                normalize_check(&p, room, normalize_fills[i], word_length(rows), p.bytes, rows);
    }
}

/* Each refusal by itself, in every buffer that is long enough. */
static void test_refusals(void)
{
    unsigned int question;

    for (question = ZUVAROPY_QUESTION_HEAD; question <= ZUVAROPY_QUESTION_MERGED; question++) {
        picture_refused(&p, question);
        CHECK_WORD(wanted_word(), word_refused(question), question);
        normalize_check_fills(&p, word_refused(question), NULL, question);
        normalize_check(&p, NORMALIZE_ROOM, 0xA5, word_refused(question), NULL, question);
    }
}

/* The input cannot be written at all, and the result not where the call is refused. */
static void check_pages(uint8_t *picture, uint8_t *result, size_t room, uint64_t wanted)
{
    const int refused = zuvaropy_outcome(wanted) == ZUVAROPY_OUTCOME_REFUSAL;

    pages_allow_writing(&input);
    memcpy(picture, p.bytes, p.length);
    pages_forbid_writing(&input);
    pages_allow_writing(&output);
    memset(result, 0xA5, room);
    if (refused)
        pages_forbid_writing(&output);
    CHECK_WORD(call_normalize(picture, p.length, result, room), wanted, p.length);
    if (!refused)
        CHECK(memcmp(result, reference.bytes, reference.length) == 0);
}

static void check_bounds(size_t room)
{
    const uint64_t wanted = room < TABLE ? word_short() : wanted_word();

    check_pages(input.first, output.first, room, wanted);
    check_pages(pages_last(&input, p.length), output.first, room, wanted);
    check_pages(input.first, pages_last(&output, room), room, wanted);
    check_pages(pages_last(&input, p.length), pages_last(&output, room), room, wanted);
}

static void test_bounds(void)
{
    static const unsigned int sizes[] = {1, 2, 5, 13, 40, 100, ZUVAROPY_MAX_ROWS};
    unsigned int question, i;

    for (question = 0; question <= ZUVAROPY_QUESTION_MERGED; question++)
        if (question != ZUVAROPY_QUESTION_BUFFER) {
            picture_refused(&p, question);
            check_bounds(TABLE);
            check_bounds(TABLE + 1);
            check_bounds(TABLE - 1);
            check_bounds(ZUVAROPY_PICTURE_BYTES(1));
            check_bounds(0);
        }
    for (i = 0; i < sizeof sizes / sizeof sizes[0]; i++) {
        picture_mixed(&p, sizes[i]);
        check_bounds(TABLE);
        picture_fan(&p, sizes[i]);
        picture_end(&p);
        check_bounds(TABLE);
    }
}

/* A picture cut off anywhere is refused without a byte read behind it. */
static void test_cut_pictures(void)
{
    picture_mixed(&p, 20);
    while (p.length-- > 0)
        check_bounds(TABLE);
}

static void test_nothing(void)
{
    static uint8_t result[TABLE];

    picture_refused(&p, 0);
    CHECK_WORD(call_normalize(p.bytes, p.length, NULL, 0), word_short(), 0);
    CHECK_WORD(call_normalize(NULL, 0, NULL, 0), word_short(), 1);
    CHECK_WORD(call_normalize(NULL, 0, result, sizeof result), word_refusal(2, 0), 2);
}

int main(void)
{
    pages_map(&input, sizeof p.bytes);
    pages_map(&output, NORMALIZE_ROOM);
    test_short_results();
    test_long_results();
    test_refusals();
    test_bounds();
    test_cut_pictures();
    test_nothing();
    return check_summary("normalize, buffers");
}

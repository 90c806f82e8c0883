/*
 * Every length from nothing to past the longest picture, and no buffer at all.
 */

#include "calls.h"
#include "check.h"
#include "picture.h"

#define MARGIN 53 /* bytes past the longest picture: two rows and some more */
#define MAX_LENGTH (ZUVAROPY_MAX_PICTURE_BYTES + MARGIN)

static struct picture p;

/* The first `length` bytes of the longest picture with more bytes after it. */
static uint64_t wanted(size_t length)
{
    const unsigned int row = (unsigned int)(length / ZUVAROPY_ROW_BYTES);

    if (length > ZUVAROPY_MAX_PICTURE_BYTES)
        return word_refusal(8, ZUVAROPY_MAX_ROWS);
    if (length == ZUVAROPY_MAX_PICTURE_BYTES)
        return word_rows(ZUVAROPY_MAX_ROWS);
    return word_refusal(length % ZUVAROPY_ROW_BYTES < ZUVAROPY_HEAD_BYTES ? 2 : 6, row);
}

/* `junk`: what the file goes on with, over and over. */
static void test_every_length(const char *junk, size_t junk_length)
{
    size_t i, length;

    picture_mixed(&p, ZUVAROPY_MAX_ROWS);
    for (i = 0; p.length < MAX_LENGTH; i++)
        picture_byte(&p, (uint8_t)junk[i % junk_length]);
    for (length = 0; length <= MAX_LENGTH; length++) {
        p.length = length;
        CHECK_WORD(picture_validate(&p), wanted(length), length);
    }
}

static void test_nothing(void)
{
    const uint8_t byte = ZUVAROPY_TAG_ROW;

    CHECK_WORD(call_validate(NULL, 0), word_refusal(2, 0), 0);
    CHECK_WORD(call_validate(&byte, 0), word_refusal(2, 0), 0);
}

int main(void)
{
    test_every_length("\0", 1);
    test_every_length("\xFF", 1);
    test_every_length("\x10\0\x15", 3);
    test_every_length("\x2F\0\0", 3);
    test_nothing();
    return check_summary("lengths");
}

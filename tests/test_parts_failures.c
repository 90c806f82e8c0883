/*
 * What the writer of zuvaropy_parts.h cannot write: it writes nothing of it, nor
 * anything later, and says so at the end.
 */

#include "zuvaropy_parts.h"

#include "check.h"

#include <string.h>

#define LONGEST_VALUE 65535
#define FILL 0xA5

/* Room for everything, so that it is not the room that fails. */
static uint8_t large[2 * LONGEST_VALUE], card[LONGEST_VALUE + 1];

/* Each of these does one thing for each number that a writer cannot do; 0 if there are no more. */
static int fail_anywhere(struct zuvaropy_writer *writer, unsigned int what)
{
    switch (what) {
    case 0: zuvaropy_write_row(writer, 65536, ZUVAROPY_KIND_EXISTS, 0); return 1;
    case 1: zuvaropy_write_row(writer, 0, 256, 0); return 1;
    case 2: zuvaropy_write_row(writer, 0, ZUVAROPY_KIND_EXISTS, 256); return 1;
    case 3: zuvaropy_write_row(writer, ~0u, ~0u, ~0u); return 1;
    case 4: zuvaropy_write_wanted(writer, 0, ZUVAROPY_NAMES); return 1;
    case 5: zuvaropy_write_excluded(writer, 0, ZUVAROPY_NAMES); return 1;
    case 6: zuvaropy_write_wanted(writer, 1, ~0u); return 1;
    case 7: zuvaropy_write_wanted(writer, writer->count, 0); return 1;
    case 8: zuvaropy_write_excluded(writer, writer->count, 0); return 1;
    case 9: zuvaropy_write_impossible(writer, writer->count); return 1;
    case 10: zuvaropy_write_wanted(writer, ~0u, 0); return 1;
    case 11: zuvaropy_write_card(writer, card, LONGEST_VALUE + 1); return 1;
    case 12: zuvaropy_write_card(writer, card, SIZE_MAX); return 1;
    case 13: zuvaropy_parts_write_field(writer, 256, 0); return 1;
    case 14: zuvaropy_parts_write_field(writer, ZUVAROPY_TAG_CARD, LONGEST_VALUE + 1); return 1;
    case 15: zuvaropy_write_card(writer, card, 0); return 1;
    case 16: zuvaropy_write_card(writer, NULL, 30); return 1;
    default: return 0;
    }
}

static int fail_in_picture(struct zuvaropy_writer *writer, unsigned int what)
{
    if (what > 0)
        return 0;
    zuvaropy_write_card(writer, card, 30);
    return 1;
}

static int fail_in_book(struct zuvaropy_writer *writer, unsigned int what)
{
    switch (what) {
    case 0: zuvaropy_write_row(writer, 0, ZUVAROPY_KIND_EXISTS, 0); return 1;
    case 1: zuvaropy_write_wanted(writer, 0, 0); return 1;
    case 2: zuvaropy_write_excluded(writer, 0, 0); return 1;
    case 3: zuvaropy_write_impossible(writer, 0); return 1;
    default: return 0;
    }
}

static int fail_after_end(struct zuvaropy_writer *writer, unsigned int what)
{
    switch (what) {
    case 0: zuvaropy_write_row(writer, 0, ZUVAROPY_KIND_EXISTS, 0); return 1;
    case 1: zuvaropy_write_card(writer, card, 30); return 1;
    case 2: zuvaropy_write_wanted(writer, 0, 0); return 1;
    case 3: zuvaropy_write_excluded(writer, 0, 0); return 1;
    case 4: zuvaropy_write_impossible(writer, 0); return 1;
    case 5: return zuvaropy_write_end(writer) == 0;
    default: return 0;
    }
}

/* A writer of two rows, of two cards, or of neither. */
enum start { ROWS_START, CARDS_START, NEW_START };

static struct zuvaropy_writer begin(enum start start)
{
    struct zuvaropy_writer writer = zuvaropy_write_to(large, sizeof large);
    unsigned int i;

    memset(large, FILL, sizeof large);
    for (i = 0; i < 2; i++) {
        if (start == ROWS_START)
            zuvaropy_write_row(&writer, 0, i == 0 ? ZUVAROPY_KIND_ROOT : ZUVAROPY_KIND_EXISTS, 0);
        if (start == CARDS_START)
            zuvaropy_write_card(&writer, card, 30);
    }
    CHECK(!writer.failed);
    return writer;
}

/* Nothing that would have been possible before is done any more. */
static void go_on(struct zuvaropy_writer *writer)
{
    CHECK(zuvaropy_write_row(writer, 0, ZUVAROPY_KIND_EXISTS, 0) == ZUVAROPY_MAX_ROWS);
    CHECK(zuvaropy_write_card(writer, card, 30) == ZUVAROPY_MAX_CARDS);
    CHECK(zuvaropy_parts_write_field(writer, ZUVAROPY_TAG_ROW, 0) == NULL);
    zuvaropy_write_wanted(writer, 0, 0);
    zuvaropy_write_excluded(writer, 0, 0);
    zuvaropy_write_impossible(writer, 0);
    CHECK(zuvaropy_write_end(writer) == 0);
    CHECK(writer->failed);
}

static void check_failures(int (*fail)(struct zuvaropy_writer *, unsigned int), enum start start, int ended)
{
    static uint8_t before[sizeof large];
    unsigned int what;
    int more = 1;

    for (what = 0; more; what++) {
        struct zuvaropy_writer writer = begin(start);
        size_t length;

        if (ended)
            CHECK(zuvaropy_write_end(&writer) > 0);
        length = writer.length;
        memcpy(before, large, sizeof large);
        more = fail(&writer, what);
        CHECK(writer.failed == more);
        if (more)
            go_on(&writer);
        CHECK(writer.length == length && memcmp(large, before, sizeof large) == 0);
    }
    CHECK(what > 1);
}

static void test_failures(void)
{
    struct zuvaropy_writer nowhere = zuvaropy_write_to(NULL, 100);

    go_on(&nowhere);
    check_failures(fail_anywhere, ROWS_START, 0);
    check_failures(fail_anywhere, CARDS_START, 0);
    check_failures(fail_anywhere, NEW_START, 0);
    check_failures(fail_in_picture, ROWS_START, 0);
    check_failures(fail_in_book, CARDS_START, 0);
    check_failures(fail_after_end, ROWS_START, 1);
    check_failures(fail_after_end, CARDS_START, 1);
    check_failures(fail_after_end, NEW_START, 1);
}

/* The longest value that a field can have is a card still. */
static void test_longest_card(void)
{
    struct zuvaropy_writer writer = begin(NEW_START);

    memset(card, 7, sizeof card);
    CHECK(zuvaropy_write_card(&writer, card, LONGEST_VALUE) == 0);
    CHECK(zuvaropy_write_end(&writer) == ZUVAROPY_CARD_BYTES(LONGEST_VALUE) + ZUVAROPY_HEAD_BYTES);
    CHECK(large[1] == 0xFF && large[2] == 0xFF && memcmp(large + 3, card, LONGEST_VALUE) == 0);
}

int main(void)
{
    test_failures();
    test_longest_card();
    return check_summary("parts, failures");
}

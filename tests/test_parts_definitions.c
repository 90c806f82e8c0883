/*
 * Definitions books in zuvaropy_parts.h: what is written, to the byte, at what a
 * writer fails, what is read of whole, cut and damaged books, and that the calls
 * take what is written.
 */

#include "zuvaropy_parts.h"

#include <string.h>

#include "calls.h"
#include "check.h"

#define LONGEST_VALUE 65535u

/* A row that says nothing, one that wants name 9, and a book in which these define names 63 and 5. */
static const uint8_t top_bytes[ZUVAROPY_PICTURE_BYTES(1)] = {
    0x10, 0, 21, 0, 0, 0, 0, 0, 0, 0, 0, 0, 0, 0, 0, 0, 0, 0, 0, 0, 0, 0, 0, 0, 0x2F, 0, 0,
};
static const uint8_t nine_bytes[ZUVAROPY_PICTURE_BYTES(1)] = {
    0x10, 0, 21, 0, 0, 0, 0, 0, 0, 0, 0, 0, 0, 0, 2, 0, 0, 0, 0, 0, 0, 0, 0, 0, 0x2F, 0, 0,
};
static const uint8_t book_bytes[2 * ZUVAROPY_DEFINITION_BYTES(ZUVAROPY_PICTURE_BYTES(1)) + ZUVAROPY_HEAD_BYTES] = {
    0x61, 0, 28, 5,  0x10, 0, 21, 0, 0, 0, 0, 0, 0, 0, 0, 0, 0, 0, 2, 0, 0, 0, 0, 0, 0, 0, 0, 0, 0x2F, 0, 0,
    0x61, 0, 28, 63, 0x10, 0, 21, 0, 0, 0, 0, 0, 0, 0, 0, 0, 0, 0, 0, 0, 0, 0, 0, 0, 0, 0, 0, 0, 0x2F, 0, 0,
    0x2F, 0, 0,
};
static uint8_t large[ZUVAROPY_MAX_DEFINITIONS_BYTES + LONGEST_VALUE], longest[LONGEST_VALUE];

static struct zuvaropy_writer written(unsigned int definitions)
{
    struct zuvaropy_writer writer = zuvaropy_write_to(large, sizeof large);
    unsigned int i;

    memset(large, 7, sizeof large);
    for (i = 0; i < definitions; i++)
        CHECK(zuvaropy_write_definition(&writer, i, top_bytes, sizeof top_bytes) == i);
    return writer;
}

static void test_sizes(void)
{
    CHECK(ZUVAROPY_TAG_DEFINITION == 0x61 && ZUVAROPY_MAX_DEFINITIONS == 32);
    CHECK(ZUVAROPY_DEFINED_AT == 0 && ZUVAROPY_DEFINED_BYTES == 1 && ZUVAROPY_DEFINITION_PICTURE_AT == 1);
    CHECK(ZUVAROPY_DEFINITION_BYTES(27) == 31);
    CHECK(2 * ZUVAROPY_DEFINITION_BYTES(0 + 1) == 10);
    CHECK(ZUVAROPY_MAX_DEFINITIONS_BYTES == 32 * (3 + 1 + 6147) + 3);
}

static void test_writing(void)
{
    struct zuvaropy_writer writer = zuvaropy_write_to(large, sizeof large);
    unsigned int count;

    memset(large, 7, sizeof large);
    CHECK(zuvaropy_write_definition(&writer, 5, nine_bytes, sizeof nine_bytes) == 0);
    CHECK(zuvaropy_write_definition(&writer, 63, top_bytes, sizeof top_bytes) == 1);
    CHECK(zuvaropy_write_end(&writer) == sizeof book_bytes);
    CHECK(memcmp(large, book_bytes, sizeof book_bytes) == 0 && large[sizeof book_bytes] == 7);
    for (count = 0; count <= ZUVAROPY_MAX_DEFINITIONS; count++) {
        writer = written(count);
        CHECK(zuvaropy_write_end(&writer) == count * ZUVAROPY_DEFINITION_BYTES(27) + ZUVAROPY_HEAD_BYTES);
        CHECK(zuvaropy_book_definitions(large, writer.length) == count);
    }
}

/* The longest picture that fits into a field beside the name. */
static void test_longest(void)
{
    struct zuvaropy_writer writer = written(0);
    unsigned int name;
    size_t length;

    memset(longest, 9, sizeof longest);
    CHECK(zuvaropy_write_definition(&writer, 1, longest, LONGEST_VALUE - 1) == 0);
    CHECK(zuvaropy_write_end(&writer) == ZUVAROPY_HEAD_BYTES + LONGEST_VALUE + ZUVAROPY_HEAD_BYTES);
    CHECK(zuvaropy_book_definition(large, writer.length, 0, &name, &length) == large + 4);
    CHECK(name == 1 && length == LONGEST_VALUE - 1 && memcmp(large + 4, longest, length) == 0);
}

/* What a writer cannot write; 0 when there is no more of it. */
static int fail(struct zuvaropy_writer *writer, unsigned int what)
{
    switch (what) {
    case 0: zuvaropy_write_definition(writer, ZUVAROPY_NAMES, top_bytes, sizeof top_bytes); return 1;
    case 1: zuvaropy_write_definition(writer, ~0u, top_bytes, sizeof top_bytes); return 1;
    case 2: zuvaropy_write_definition(writer, 9, NULL, sizeof top_bytes); return 1;
    case 3: zuvaropy_write_definition(writer, 9, top_bytes, 0); return 1;
    case 4: zuvaropy_write_definition(writer, 9, longest, LONGEST_VALUE); return 1;
    case 5: zuvaropy_write_definition(writer, 9, longest, SIZE_MAX); return 1;
    case 6: zuvaropy_write_definition(writer, 9, longest, SIZE_MAX - 1); return 1;
    case 7: zuvaropy_write_card(writer, top_bytes, sizeof top_bytes); return 1;
    case 8: zuvaropy_write_row(writer, 0, ZUVAROPY_KIND_EXISTS, 0); return 1;
    case 9: zuvaropy_write_wanted(writer, 0, 0); return 1;
    default: return 0;
    }
}

/* Nothing is written any more, and what was stays. */
static void check_failed_writer(struct zuvaropy_writer *writer)
{
    static uint8_t before[sizeof large];
    const size_t length = writer->length;

    memcpy(before, large, sizeof large);
    CHECK(writer->failed);
    CHECK(zuvaropy_write_definition(writer, 9, top_bytes, sizeof top_bytes) == ZUVAROPY_MAX_DEFINITIONS);
    CHECK(zuvaropy_write_end(writer) == 0);
    CHECK(writer->length == length && memcmp(large, before, sizeof large) == 0);
}

static void test_failures(void)
{
    struct zuvaropy_writer writer = written(2);
    unsigned int what;

    for (what = 0; fail(&writer, what); what++) {
        CHECK(writer.length == 2 * ZUVAROPY_DEFINITION_BYTES(27));
        check_failed_writer(&writer);
        writer = written(2);
    }
    CHECK(what == 10);

    writer = written(ZUVAROPY_MAX_DEFINITIONS);
    CHECK(zuvaropy_write_definition(&writer, 9, top_bytes, sizeof top_bytes) == ZUVAROPY_MAX_DEFINITIONS);
    check_failed_writer(&writer);
    writer = written(1);
    CHECK(zuvaropy_write_end(&writer) > 0); /* and then no more */
    CHECK(zuvaropy_write_definition(&writer, 9, top_bytes, sizeof top_bytes) == ZUVAROPY_MAX_DEFINITIONS);
    check_failed_writer(&writer);
    writer = zuvaropy_write_to(large, sizeof large);
    CHECK(zuvaropy_write_card(&writer, top_bytes, sizeof top_bytes) == 0);
    CHECK(zuvaropy_write_definition(&writer, 9, top_bytes, sizeof top_bytes) == ZUVAROPY_MAX_DEFINITIONS);
    check_failed_writer(&writer);
}

/* In every room a definition is written whole or not at all. */
static void test_room(void)
{
    const size_t whole = ZUVAROPY_DEFINITION_BYTES(27);
    size_t room;

    for (room = 0; room <= whole + ZUVAROPY_HEAD_BYTES; room++) {
        struct zuvaropy_writer writer = zuvaropy_write_to(large, room);

        memset(large, 7, sizeof large);
        CHECK(zuvaropy_write_definition(&writer, 5, nine_bytes, 27) == (room < whole ? ZUVAROPY_MAX_DEFINITIONS : 0));
        CHECK(zuvaropy_write_end(&writer) == (room < whole + ZUVAROPY_HEAD_BYTES ? 0 : room));
        CHECK(large[0] == (room < whole ? 7 : 0x61) && large[room] == 7);
    }
}

/* A book that is cut anywhere: what is whole is read, from a buffer that is no longer. */
static void test_cut(void)
{
    const size_t field = ZUVAROPY_DEFINITION_BYTES(27);
    unsigned int name;
    size_t cut, length;

    for (cut = 0; cut <= sizeof book_bytes; cut++) {
        const unsigned int whole = cut < field ? 0 : cut < 2 * field ? 1 : 2;
        uint8_t *bytes = large + sizeof large - cut;

        memcpy(bytes, book_bytes, cut);
        CHECK(zuvaropy_book_definitions(bytes, cut) == whole);
        CHECK(zuvaropy_book_definition(bytes, cut, whole, &name, &length) == NULL && name == 0 && length == 0);
        if (whole > 0)
            CHECK(zuvaropy_book_definition(bytes, cut, 0, &name, &length) == bytes + 4 && name == 5 && length == 27);
        if (whole > 1)
            CHECK(zuvaropy_book_definition(bytes, cut, 1, &name, &length) == bytes + 35 && name == 63 && length == 27);
    }
}

static void test_reading(void)
{
    static const uint8_t named[] = {0x61, 0, 1, 200, 0x61, 0, 0, 0x2F, 0, 0}; /* a name alone; not even a name */
    static const uint8_t card[] = {0x51, 0, 1, 2, 0x61, 0, 1, 3, 0x2F, 0, 0};
    struct zuvaropy_writer writer = written(ZUVAROPY_MAX_DEFINITIONS);
    unsigned int name;
    size_t length;

    CHECK(zuvaropy_book_definition(named, sizeof named, 0, &name, &length) == named + 4 && name == 200 && length == 0);
    CHECK(zuvaropy_book_definition(named, sizeof named, 1, &name, &length) == NULL && name == 0 && length == 0);
    CHECK(zuvaropy_book_definitions(named, sizeof named) == 1);
    CHECK(zuvaropy_book_definitions(card, sizeof card) == 0 && zuvaropy_book_cards(card, sizeof card) == 1);
    CHECK(zuvaropy_book_cards(named, sizeof named) == 0);
    CHECK(zuvaropy_book_definitions(NULL, 7) == 0);
    CHECK(zuvaropy_book_definition(named, sizeof named, ~0u, &name, &length) == NULL && length == 0);

    memcpy(large + writer.length, book_bytes, sizeof book_bytes); /* more than a book has are not told */
    CHECK(zuvaropy_book_definitions(large, writer.length + sizeof book_bytes) == ZUVAROPY_MAX_DEFINITIONS);
}

/* The calls take what is written, and read the name where it is: name 5 is defined by name 9, name 0 is not. */
static void test_call(void)
{
    static uint8_t picture[ZUVAROPY_PICTURE_BYTES(1)], table[ZUVAROPY_MAX_PICTURE_BYTES];
    struct zuvaropy_writer writer = zuvaropy_write_to(picture, sizeof picture);
    const uint8_t *row;
    uint64_t word;

    zuvaropy_write_row(&writer, 0, ZUVAROPY_KIND_ROOT, 0);
    zuvaropy_write_wanted(&writer, 0, 0);
    zuvaropy_write_wanted(&writer, 0, 5);
    CHECK(zuvaropy_write_end(&writer) == sizeof picture);
    calls_under(book_bytes, sizeof book_bytes);
    word = call_normalize(picture, sizeof picture, table, sizeof table);
    calls_under_none();
    CHECK_WORD(word, (uint64_t)ZUVAROPY_OUTCOME_YES << ZUVAROPY_OUTCOME_SHIFT | ZUVAROPY_PICTURE_BYTES(1), 0);
    row = zuvaropy_table_row(table, zuvaropy_value(word), 0);
    CHECK(zuvaropy_row_wants(row, 0) && zuvaropy_row_wants(row, 9) && !zuvaropy_row_wants(row, 5));
}

int main(void)
{
    test_sizes();
    test_writing();
    test_longest();
    test_failures();
    test_room();
    test_cut();
    test_reading();
    test_call();
    return check_summary("parts, definitions");
}

/*
 * zuvaropy_parts.h on small files whose bytes stand here: what is written, what is
 * read, and that the calls take it. Compiles as C99 and as C++. test_parts_writing
 * and test_parts_reading have files of all sizes and bytes at random.
 */

#include "zuvaropy_parts.h"
#include "zuvaropy_parts.h" /* a second time: nothing may be declared twice */

#include "calls.h"
#include "check.h"

/* Some successor by role 8 has names 3 and 63 and not name 8, and no successor by role 31 is there. */
static const uint8_t picture_bytes[ZUVAROPY_PICTURE_BYTES(3)] = {
    0x10, 0, 21, 0, 0, 0, 0,  0, 0,    0, 0, 0, 0, 0, 0, 0, 0, 0, 0, 0, 0, 0, 0, 0, /* row 0 */
    0x10, 0, 21, 0, 0, 1, 8,  0, 0x80, 0, 0, 0, 0, 0, 0, 8, 0, 0, 0, 0, 0, 0, 1, 0, /* row 1 */
    0x10, 0, 21, 0, 0, 2, 31, 1, 0,    0, 0, 0, 0, 0, 0, 0, 0, 0, 0, 0, 0, 0, 0, 0, /* row 2 */
    0x2F, 0, 0,
};

/* The picture of one row that says nothing, and a book of it and of no bytes. */
static const uint8_t top_bytes[ZUVAROPY_PICTURE_BYTES(1)] = {
    0x10, 0, 21, 0, 0, 0, 0, 0, 0, 0, 0, 0, 0, 0, 0, 0, 0, 0, 0, 0, 0, 0, 0, 0, 0x2F, 0, 0,
};
static const uint8_t book_bytes[ZUVAROPY_CARD_BYTES(ZUVAROPY_PICTURE_BYTES(1)) + 2 * ZUVAROPY_HEAD_BYTES] = {
    0x51, 0, 27, 0x10, 0, 21, 0, 0, 0, 0, 0, 0, 0, 0, 0, 0, 0, 0, 0, 0, 0, 0, 0, 0, 0, 0, 0, 0x2F, 0, 0,
    0x51, 0, 0,  0x2F, 0, 0,
};

static const uint8_t map_bytes[ZUVAROPY_MAP_BYTES(3)] = {0x41, 0, 6, 0, 0, 1, 2, 0, 1, 0x2F, 0, 0};

/* Individual 1 has names 3 and 56, and individual 0 reaches it by role 8. */
static const uint8_t refutation_bytes[ZUVAROPY_REFUTATION_BYTES(2)] = {
    0x42, 0, 11, 0, 0, 0, 0, 0, 0, 0, 0, 0, 0, 0, 0x42, 0, 11, 0, 0, 8, 1, 0, 0, 0, 0, 0, 0, 8, 0x2F, 0, 0,
};

static uint8_t work[ZUVAROPY_WORK_BYTES];

static void test_numbers(void)
{
    const uint8_t bytes[] = {1, 2, 3, 0xFF};
    uint8_t written[] = {9, 9, 9, 9};

    CHECK(zuvaropy_parts_get_number(bytes, 0) == 0);
    CHECK(zuvaropy_parts_get_number(bytes, 1) == 1);
    CHECK(zuvaropy_parts_get_number(bytes, 2) == 0x102);
    CHECK(zuvaropy_parts_get_number(bytes, 4) == 0x10203FFu);

    zuvaropy_parts_put_number(written, 0, 5);
    CHECK(written[0] == 9);
    zuvaropy_parts_put_number(written + 1, 2, 0x1234);
    CHECK(written[0] == 9 && written[1] == 0x12 && written[2] == 0x34 && written[3] == 9);

    CHECK(zuvaropy_parts_number_fits(0, 0));
    CHECK(!zuvaropy_parts_number_fits(1, 0));
    CHECK(zuvaropy_parts_number_fits(255, 1));
    CHECK(!zuvaropy_parts_number_fits(256, 1));
    CHECK(zuvaropy_parts_number_fits(65535, 2));
    CHECK(!zuvaropy_parts_number_fits(65536, 2));
    CHECK(!zuvaropy_parts_number_fits(SIZE_MAX, 2));
}

static void test_sets(void)
{
    uint8_t set[ZUVAROPY_NAME_SET_BYTES + 1];
    unsigned int name;

    memset(set, 0, sizeof set);
    CHECK(zuvaropy_set_add(set, 0) && set[7] == 1);
    CHECK(zuvaropy_set_add(set, 9) && set[6] == 2);
    CHECK(zuvaropy_set_add(set, 63) && set[0] == 0x80);
    CHECK(zuvaropy_set_add(set, 62) && set[0] == 0xC0);
    for (name = 0; name < 300; name++)
        CHECK(zuvaropy_set_has(set, name) == (name == 0 || name == 9 || name == 62 || name == 63));

    CHECK(!zuvaropy_set_add(set, ZUVAROPY_NAMES));
    CHECK(!zuvaropy_set_add(set, ~0u));
    CHECK(set[0] == 0xC0 && set[6] == 2 && set[7] == 1 && set[8] == 0);
    CHECK(!zuvaropy_set_has(set, ~0u));
    CHECK(!zuvaropy_set_add(NULL, 0));
    CHECK(!zuvaropy_set_has(NULL, 0));
}

static void test_writing_a_picture(void)
{
    uint8_t bytes[ZUVAROPY_MAX_PICTURE_BYTES];
    struct zuvaropy_writer writer = zuvaropy_write_to(bytes, sizeof bytes);
    const unsigned int root = zuvaropy_write_row(&writer, 0, ZUVAROPY_KIND_ROOT, 0);
    const unsigned int some = zuvaropy_write_row(&writer, root, ZUVAROPY_KIND_EXISTS, 8);
    const unsigned int all = zuvaropy_write_row(&writer, root, ZUVAROPY_KIND_FORALL, 31);

    CHECK(root == 0 && some == 1 && all == 2 && writer.count == 3);
    zuvaropy_write_impossible(&writer, all);
    zuvaropy_write_wanted(&writer, some, 3); /* in an order of one's own */
    zuvaropy_write_excluded(&writer, some, 8);
    zuvaropy_write_wanted(&writer, some, 63);
    CHECK(zuvaropy_write_end(&writer) == sizeof picture_bytes);
    CHECK(!writer.failed);
    CHECK(memcmp(bytes, picture_bytes, sizeof picture_bytes) == 0);
    CHECK(zuvaropy_value(call_validate(bytes, writer.length)) == 3);
}

static void test_writing_a_book(void)
{
    uint8_t bytes[sizeof book_bytes];
    struct zuvaropy_writer writer = zuvaropy_write_to(bytes, sizeof bytes);
    uint64_t word;

    CHECK(zuvaropy_write_card(&writer, top_bytes, sizeof top_bytes) == 0);
    CHECK(zuvaropy_write_end(&writer) == ZUVAROPY_CARD_BYTES(sizeof top_bytes) + ZUVAROPY_HEAD_BYTES);
    CHECK(memcmp(bytes, book_bytes, ZUVAROPY_CARD_BYTES(sizeof top_bytes)) == 0);
    word = call_most_specific(picture_bytes, sizeof picture_bytes, bytes, writer.length, work, sizeof work);
    CHECK(zuvaropy_outcome(word) == ZUVAROPY_OUTCOME_YES && zuvaropy_value(word) == 1);
}

static void test_reading_a_table(void)
{
    const size_t length = sizeof picture_bytes;
    const uint8_t *row = zuvaropy_table_row(picture_bytes, length, 1);
    unsigned int name;

    CHECK(zuvaropy_table_rows(picture_bytes, length) == 3);
    CHECK(row == picture_bytes + 27);
    CHECK(zuvaropy_row_parent(row) == 0 && zuvaropy_row_kind(row) == ZUVAROPY_KIND_EXISTS);
    CHECK(zuvaropy_row_role(row) == 8 && zuvaropy_row_impossible(row) == 0);
    for (name = 0; name < 300; name++) {
        CHECK(zuvaropy_row_wants(row, name) == (name == 3 || name == 63));
        CHECK(zuvaropy_row_excludes(row, name) == (name == 8));
    }
    row = zuvaropy_table_row(picture_bytes, length, 2);
    CHECK(zuvaropy_row_kind(row) == ZUVAROPY_KIND_FORALL && zuvaropy_row_role(row) == 31);
    CHECK(zuvaropy_row_impossible(row) == 1);

    CHECK(zuvaropy_table_row(picture_bytes, length, 3) == NULL);
    CHECK(zuvaropy_table_rows(NULL, length) == 0 && zuvaropy_table_row(NULL, length, 0) == NULL);
    CHECK(zuvaropy_table_rows(map_bytes, sizeof map_bytes) == 0);
    CHECK(zuvaropy_row_parent(NULL) == 0 && zuvaropy_row_kind(NULL) == 0 && zuvaropy_row_role(NULL) == 0);
    CHECK(zuvaropy_row_impossible(NULL) == 0 && !zuvaropy_row_wants(NULL, 0) && !zuvaropy_row_excludes(NULL, 0));
}

static void test_reading_evidence(void)
{
    const size_t length = sizeof refutation_bytes;
    const uint8_t *individual = zuvaropy_refutation_individual(refutation_bytes, length, 1);
    unsigned int name;

    CHECK(zuvaropy_map_images(map_bytes, sizeof map_bytes) == 3);
    CHECK(zuvaropy_map_image(map_bytes, sizeof map_bytes, 0) == 0);
    CHECK(zuvaropy_map_image(map_bytes, sizeof map_bytes, 1) == 0x102);
    CHECK(zuvaropy_map_image(map_bytes, sizeof map_bytes, 2) == 1);
    CHECK(zuvaropy_map_image(map_bytes, sizeof map_bytes, 3) == 0);
    CHECK(zuvaropy_map_images(NULL, 12) == 0 && zuvaropy_map_image(NULL, 12, 1) == 0);
    CHECK(zuvaropy_map_images(refutation_bytes, length) == 0);

    CHECK(zuvaropy_refutation_individuals(refutation_bytes, length) == 2);
    CHECK(individual == refutation_bytes + 17);
    CHECK(zuvaropy_individual_parent(individual) == 0 && zuvaropy_individual_role(individual) == 8);
    for (name = 0; name < 300; name++)
        CHECK(zuvaropy_individual_has(individual, name) == (name == 3 || name == 56));
    CHECK(zuvaropy_refutation_individual(refutation_bytes, length, 2) == NULL);
    CHECK(zuvaropy_refutation_individuals(NULL, length) == 0);
    CHECK(zuvaropy_refutation_individuals(map_bytes, sizeof map_bytes) == 0);
    CHECK(zuvaropy_individual_parent(NULL) == 0 && zuvaropy_individual_role(NULL) == 0);
    CHECK(!zuvaropy_individual_has(NULL, 0));
}

static void test_reading_a_book(void)
{
    size_t length = 7;

    CHECK(zuvaropy_book_cards(book_bytes, sizeof book_bytes) == 2);
    CHECK(zuvaropy_book_card(book_bytes, sizeof book_bytes, 0, &length) == book_bytes + 3);
    CHECK(length == sizeof top_bytes);
    CHECK(zuvaropy_book_card(book_bytes, sizeof book_bytes, 1, &length) == book_bytes + 33);
    CHECK(length == 0);
    length = 7;
    CHECK(zuvaropy_book_card(book_bytes, sizeof book_bytes, 2, &length) == NULL);
    CHECK(length == 0);
    CHECK(zuvaropy_book_cards(NULL, 7) == 0 && zuvaropy_book_cards(picture_bytes, sizeof picture_bytes) == 0);
}

/* The tables of both halves of a work space; a longer one that was there before is not seen. */
static void test_reading_a_work_space(void)
{
    const size_t half = ZUVAROPY_MAX_PICTURE_BYTES;
    static uint8_t evidence[ZUVAROPY_MAX_EVIDENCE_BYTES];
    uint64_t word;

    memcpy(work, picture_bytes, sizeof picture_bytes);
    word = call_subsumes(top_bytes, sizeof top_bytes, picture_bytes, sizeof picture_bytes, work, sizeof work,
                         evidence, sizeof evidence);
    CHECK(zuvaropy_outcome(word) == ZUVAROPY_OUTCOME_NO);
    CHECK(zuvaropy_refutation_individuals(evidence, zuvaropy_value(word)) >= 1);
    CHECK(zuvaropy_table_rows(work, half) == 1);
    CHECK(zuvaropy_table_rows(work, sizeof work) == 1);
    CHECK(zuvaropy_table_rows(work + ZUVAROPY_SECOND_TABLE_AT, half) == 3);
    CHECK(zuvaropy_row_role(zuvaropy_table_row(work + ZUVAROPY_SECOND_TABLE_AT, half, 1)) == 8);
}

int main(void)
{
    test_numbers();
    test_sets();
    test_writing_a_picture();
    test_writing_a_book();
    test_reading_a_table();
    test_reading_evidence();
    test_reading_a_book();
    test_reading_a_work_space();
#ifdef __cplusplus
    return check_summary("parts as C++");
#else
    return check_summary("parts");
#endif
}

/*
 * The readers of zuvaropy_parts.h: pictures, books and evidence are read as the
 * tests built them, whole and cut off anywhere. They stand between pages that may
 * not be touched, so that a byte read outside them ends the program.
 */

#include "zuvaropy_parts.h"

#include "book.h"
#include "check.h"
#include "evidence.h"
#include "pages.h"
#include "random.h"
#include "rows.h"

#include <string.h>

#define TURNS 300

static struct pages pages;

/* So many bytes at the end of the pages, or at their beginning by every other call. */
static const uint8_t *place(const uint8_t *bytes, size_t length)
{
    static int last;
    const uint8_t *at;

    last = !last;
    at = pages_place(&pages, bytes, length, last);
    pages_forbid_writing(&pages);
    return at;
}

static void check_names(const uint8_t *row, const struct row *wanted)
{
    unsigned int name;

    for (name = 0; name < ZUVAROPY_NAMES; name++) {
        CHECK(zuvaropy_row_wants(row, name) == (int)(wanted->wanted >> name & 1));
        CHECK(zuvaropy_row_excludes(row, name) == (int)(wanted->excluded >> name & 1));
    }
    CHECK(!zuvaropy_row_wants(row, ZUVAROPY_NAMES) && !zuvaropy_row_excludes(row, ~0u));
}

static void check_row(const uint8_t *row, const struct row *wanted)
{
    CHECK(zuvaropy_row_parent(row) == wanted->parent);
    CHECK(zuvaropy_row_kind(row) == wanted->kind);
    CHECK(zuvaropy_row_role(row) == wanted->role);
    CHECK(zuvaropy_row_impossible(row) == wanted->impossible);
    check_names(row, wanted);
}

/* The rows of a picture of which so many bytes are left. */
static void check_table(const struct picture *p, size_t length)
{
    static struct row rows[ZUVAROPY_MAX_ROWS + 16];
    const uint8_t *at = place(p->bytes, length);
    const size_t whole = length / ZUVAROPY_ROW_BYTES;
    const unsigned int count = whole < ZUVAROPY_MAX_ROWS ? (unsigned int)whole : ZUVAROPY_MAX_ROWS;
    unsigned int row;

    rows_read(rows, p->bytes, count);
    CHECK(zuvaropy_table_rows(at, length) == count);
    for (row = 0; row < count; row++)
        check_row(zuvaropy_table_row(at, length, row), &rows[row]);
    for (; row < count + 20; row++)
        CHECK(zuvaropy_table_row(at, length, row) == NULL);
    CHECK(zuvaropy_table_row(at, length, ~0u) == NULL);
}

static void test_tables(void)
{
    static struct picture p;
    unsigned int turn;
    size_t length;

    for (turn = 0; turn < TURNS; turn++) {
        const struct shape shape = random_shape();

        random_picture(&p, &shape);
        check_table(&p, p.length);
        check_table(&p, random_below((unsigned int)p.length + 1));
    }
    picture_mixed(&p, 4);
    for (length = 0; length <= p.length; length++)
        check_table(&p, length);
    picture_fan(&p, ZUVAROPY_MAX_ROWS + 3); /* more than a picture has are not told */
    check_table(&p, p.length);
}

/* The cards of a book of which so many bytes are left. */
static void check_book(const struct book *b, unsigned int cards, size_t length)
{
    const uint8_t *at = place(b->bytes, length);
    unsigned int count = 0;
    size_t card_length;

    while (count < cards && count < ZUVAROPY_MAX_CARDS && book_field_at(b, count + 1) <= length)
        count++;
    CHECK(zuvaropy_book_cards(at, length) == count);
    for (; count > 0; count--) {
        static struct picture taken;
        const uint8_t *card = zuvaropy_book_card(at, length, count - 1, &card_length);

        book_take(b, count - 1, &taken);
        CHECK(card == at + book_field_at(b, count - 1) + ZUVAROPY_HEAD_BYTES);
        CHECK(card_length == taken.length && memcmp(card, taken.bytes, taken.length) == 0);
    }
    CHECK(zuvaropy_book_card(at, length, zuvaropy_book_cards(at, length), &card_length) == NULL && card_length == 0);
    CHECK(zuvaropy_book_card(at, length, ~0u, &card_length) == NULL && card_length == 0);
}

static void test_books(void)
{
    static struct picture p;
    static struct book b;
    unsigned int rows;
    size_t length;

    book_clear(&b);
    for (rows = 1; rows <= 3; rows++) {
        picture_mixed(&p, rows);
        book_card(&b, &p);
    }
    book_end(&b);
    for (length = 0; length <= b.length; length++)
        check_book(&b, 3, length);
    book_copies(&b, &p, ZUVAROPY_MAX_CARDS + 1); /* more than a book has are not told */
    check_book(&b, ZUVAROPY_MAX_CARDS + 1, b.length);
}

static void check_map(const struct evidence *e, const unsigned int *images, unsigned int count, size_t length)
{
    const uint8_t *at = place(e->bytes, length);
    unsigned int row;

    if (length < ZUVAROPY_MAP_BYTES(count) - ZUVAROPY_HEAD_BYTES)
        count = 0; /* its one field is not whole */
    else if (count > ZUVAROPY_MAX_ROWS)
        count = ZUVAROPY_MAX_ROWS;
    CHECK(zuvaropy_map_images(at, length) == count);
    CHECK(zuvaropy_refutation_individuals(at, length) == 0);
    for (row = 0; row < count; row++)
        CHECK(zuvaropy_map_image(at, length, row) == images[row]);
    CHECK(zuvaropy_map_image(at, length, count) == 0 && zuvaropy_map_image(at, length, ~0u) == 0);
}

static void test_maps(void)
{
    static struct evidence e;
    unsigned int images[ZUVAROPY_MAX_ROWS + 3], row;
    size_t length;

    for (row = 0; row < ZUVAROPY_MAX_ROWS + 3; row++)
        images[row] = random_below(65536);
    evidence_map(&e, images, 5);
    for (length = 0; length <= e.length; length++)
        check_map(&e, images, 5, length);
    evidence_map(&e, images, ZUVAROPY_MAX_ROWS + 3);
    check_map(&e, images, ZUVAROPY_MAX_ROWS + 3, e.length);
}

static void check_refutation(const struct evidence *e, size_t length)
{
    const uint8_t *at = place(e->bytes, length);
    const unsigned int count = (unsigned int)(length / ZUVAROPY_INDIVIDUAL_BYTES);
    unsigned int i, name;

    CHECK(zuvaropy_refutation_individuals(at, length) == count);
    CHECK(zuvaropy_map_images(at, length) == 0);
    for (i = 0; i < count; i++) {
        const uint8_t *value = e->bytes + i * ZUVAROPY_INDIVIDUAL_BYTES + ZUVAROPY_HEAD_BYTES;
        const uint8_t *individual = zuvaropy_refutation_individual(at, length, i);
        const uint64_t names = rows_number(value + ZUVAROPY_INDIVIDUAL_NAMES_AT, ZUVAROPY_NAME_SET_BYTES);

        CHECK(zuvaropy_individual_parent(individual) == rows_number(value, ZUVAROPY_PARENT_BYTES));
        CHECK(zuvaropy_individual_role(individual) == value[ZUVAROPY_INDIVIDUAL_ROLE_AT]);
        for (name = 0; name < ZUVAROPY_NAMES; name++)
            CHECK(zuvaropy_individual_has(individual, name) == (int)(names >> name & 1));
        CHECK(!zuvaropy_individual_has(individual, ZUVAROPY_NAMES));
    }
    CHECK(zuvaropy_refutation_individual(at, length, count) == NULL);
    CHECK(zuvaropy_refutation_individual(at, length, ~0u) == NULL);
}

static void test_refutations(void)
{
    static struct evidence e;
    unsigned int i;
    size_t length;

    evidence_clear(&e);
    for (i = 0; i < 5; i++)
        evidence_individual(&e, random_below(65536), random_below(256), random_next());
    evidence_end(&e);
    for (length = 0; length <= e.length; length++)
        check_refutation(&e, length);
    evidence_individual(&e, 0, 0, 0);
    CHECK(zuvaropy_refutation_individuals(e.bytes, e.length) == 5); /* what comes after the end is not told */

    evidence_clear(&e);
    for (i = 0; i < ZUVAROPY_MAX_INDIVIDUALS + 3; i++) /* nor what is more than a refutation has */
        evidence_individual(&e, 0, 0, 0);
    CHECK(zuvaropy_refutation_individuals(e.bytes, e.length) == ZUVAROPY_MAX_INDIVIDUALS);
    CHECK(zuvaropy_refutation_individual(e.bytes, e.length, ZUVAROPY_MAX_INDIVIDUALS - 1) != NULL);
    CHECK(zuvaropy_refutation_individual(e.bytes, e.length, ZUVAROPY_MAX_INDIVIDUALS) == NULL);
}

int main(void)
{
    pages_map(&pages, sizeof(struct evidence));
    test_tables();
    test_books();
    test_maps();
    test_refutations();
    return check_summary("parts, reading");
}

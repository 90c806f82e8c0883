/*
 * Every answer of zuvaropy_validate: each refusal with its whole word, and
 * every value of each byte that a question looks at.
 */

#include "check.h"
#include "picture.h"

static struct picture p;

/* A root with three successors. */
static void make_small(void)
{
    picture_fan(&p, 4);
    picture_end(&p);
}

/* The words that all tests compare with, spelled out. */
static void test_words(void)
{
    CHECK(word_rows(256) == UINT64_C(0x0100000000000100));
    CHECK(word_refusal(13, 0) == UINT64_C(0x000D010000000000));
    CHECK(word_refusal(11, 3) == UINT64_C(0x000B010000030048));
    CHECK(word_refusal(5, 256) == UINT64_C(0x0005010001001800));
}

static void test_rows(void)
{
    unsigned int rows;

    for (rows = 1; rows <= ZUVAROPY_MAX_ROWS; rows++) {
        picture_fan(&p, rows);
        picture_end(&p);
        CHECK_WORD(picture_validate(&p), word_rows(rows), rows);
        picture_mixed(&p, rows);
        CHECK_WORD(picture_validate(&p), word_rows(rows), rows);
    }
    for (; rows <= ZUVAROPY_MAX_ROWS + 8; rows++) {
        picture_fan(&p, rows);
        picture_end(&p);
        CHECK_WORD(picture_validate(&p), word_refusal(5, ZUVAROPY_MAX_ROWS), rows);
    }
}

static void test_depth(void)
{
    const unsigned int row = ZUVAROPY_MAX_DEPTH + 1; /* the first one too deep, and the one after the chain */
    unsigned int edges;

    for (edges = 0; edges <= 40; edges++) {
        picture_chain(&p, edges);
        picture_end(&p);
        CHECK_WORD(picture_validate(&p), edges < row ? word_rows(edges + 1) : word_refusal(12, row), edges);
    }
    /* A row under each row of the deepest chain. */
    for (edges = 0; edges <= ZUVAROPY_MAX_DEPTH; edges++) {
        picture_chain(&p, ZUVAROPY_MAX_DEPTH);
        picture_row(&p, edges, ZUVAROPY_KIND_EXISTS, 0);
        picture_end(&p);
        CHECK_WORD(picture_validate(&p), edges < ZUVAROPY_MAX_DEPTH ? word_rows(row + 1) : word_refusal(12, row),
                   edges);
    }
}

/* One picture for each question, met by it alone. */
static void test_each_question(void)
{
    unsigned int question;

    picture_clear(&p);
    CHECK_WORD(picture_validate(&p), word_refusal(2, 0), 2);

    for (question = 3; question <= 4; question++) {
        make_small();
        picture_damage(&p, 2, question);
        CHECK_WORD(picture_validate(&p), word_refusal(question, 2), question);
    }

    picture_fan(&p, ZUVAROPY_MAX_ROWS + 1);
    picture_end(&p);
    CHECK_WORD(picture_validate(&p), word_refusal(5, 256), 5);

    make_small();
    p.length = 4 * ZUVAROPY_ROW_BYTES - 1;
    CHECK_WORD(picture_validate(&p), word_refusal(6, 3), 6);

    picture_clear(&p);
    picture_end(&p);
    CHECK_WORD(picture_validate(&p), word_refusal(7, 0), 7);

    make_small();
    picture_byte(&p, 0);
    CHECK_WORD(picture_validate(&p), word_refusal(8, 4), 8);

    for (question = 9; question <= 13; question++) {
        picture_chain(&p, ZUVAROPY_MAX_DEPTH);
        picture_row(&p, 0, ZUVAROPY_KIND_EXISTS, 0);
        picture_end(&p);
        picture_damage(&p, ZUVAROPY_MAX_DEPTH + 1, question);
        CHECK_WORD(picture_validate(&p), word_refusal(question, ZUVAROPY_MAX_DEPTH + 1), question);
    }
}

/* The tag of a row, and of the field after the last row. */
static void test_tags(void)
{
    unsigned int tag;

    for (tag = 0; tag < 256; tag++) {
        make_small();
        picture_field(&p, 2)[0] = (uint8_t)tag;
        CHECK_WORD(picture_validate(&p),
                   tag == ZUVAROPY_TAG_ROW   ? word_rows(4)
                   : tag == ZUVAROPY_TAG_END ? word_refusal(4, 2)
                                             : word_refusal(3, 2),
                   tag);
        make_small();
        picture_field(&p, 4)[0] = (uint8_t)tag;
        CHECK_WORD(picture_validate(&p),
                   tag == ZUVAROPY_TAG_END   ? word_rows(4)
                   : tag == ZUVAROPY_TAG_ROW ? word_refusal(4, 4)
                                             : word_refusal(3, 4),
                   tag);
    }
}

/* Every length, in a row and in the end field. */
static void test_field_lengths(void)
{
    unsigned int length;

    make_small();
    for (length = 0; length < 65536; length++) {
        picture_field(&p, 2)[1] = (uint8_t)(length >> 8);
        picture_field(&p, 2)[2] = (uint8_t)length;
        CHECK_WORD(picture_validate(&p), length == ZUVAROPY_ROW_VALUE_BYTES ? word_rows(4) : word_refusal(4, 2),
                   length);
    }
    make_small();
    for (length = 0; length < 65536; length++) {
        picture_field(&p, 4)[1] = (uint8_t)(length >> 8);
        picture_field(&p, 4)[2] = (uint8_t)length;
        CHECK_WORD(picture_validate(&p), length == 0 ? word_rows(4) : word_refusal(4, 4), length);
    }
}

/* Every value of one byte of a row: from `first` to below `limit` passes, the rest is refused. */
static void test_byte(unsigned int row, unsigned int at, unsigned int first, unsigned int limit, unsigned int question)
{
    unsigned int byte;

    make_small();
    for (byte = 0; byte < 256; byte++) {
        picture_value(&p, row)[at] = (uint8_t)byte;
        CHECK_WORD(picture_validate(&p), first <= byte && byte < limit ? word_rows(4) : word_refusal(question, row),
                   byte);
    }
}

static void test_bytes(void)
{
    unsigned int at, row;

    test_byte(0, ZUVAROPY_KIND_AT, 0, 1, 9);
    test_byte(0, ZUVAROPY_ROLE_AT, 0, 1, 10);
    test_byte(0, ZUVAROPY_IMPOSSIBLE_AT, 0, 2, 13);
    for (row = 1; row < 4; row++) {
        test_byte(row, ZUVAROPY_KIND_AT, 1, 3, 9);
        test_byte(row, ZUVAROPY_ROLE_AT, 0, ZUVAROPY_ROLES, 10);
        test_byte(row, ZUVAROPY_IMPOSSIBLE_AT, 0, 2, 13);
    }
    for (row = 0; row < 4; row++)
        for (at = ZUVAROPY_WANTED_AT; at < ZUVAROPY_ROW_VALUE_BYTES; at++)
            test_byte(row, at, 0, 256, 0);
}

/* Every parent, in the first rows and in the last of the longest picture. */
static void test_parents(void)
{
    static const unsigned int rows[] = {0, 1, 2, ZUVAROPY_MAX_ROWS - 1};
    unsigned int i, parent, row;

    for (i = 0; i < sizeof rows / sizeof rows[0]; i++) {
        row = rows[i];
        picture_fan(&p, row + 1);
        picture_end(&p);
        for (parent = 0; parent < 65536; parent++) {
            picture_value(&p, row)[ZUVAROPY_PARENT_AT] = (uint8_t)(parent >> 8);
            picture_value(&p, row)[ZUVAROPY_PARENT_AT + 1] = (uint8_t)parent;
            CHECK_WORD(picture_validate(&p), parent == 0 || parent < row ? word_rows(row + 1) : word_refusal(11, row),
                       parent);
        }
    }
}

int main(void)
{
    test_words();
    test_rows();
    test_depth();
    test_each_question();
    test_tags();
    test_field_lengths();
    test_bytes();
    test_parents();
    return check_summary("refusals");
}

/*
 * The header: its numbers are those of the format, its inline functions take a
 * word apart, and there are words for every code. Compiles as C99 and as C++.
 */

#include "zuvaropy.h"
#include "zuvaropy.h" /* a second time: nothing may be declared twice */

#include "check.h"
#include "second_unit.h"

/* Short, so that a call stands on one line. */
#define NONE ZUVAROPY_NO_DEFINITIONS

#ifdef __cplusplus
#include <array>
#endif
#include <stdio.h>
#include <string.h>

/* Sizes and codes are for the preprocessor too. */
#if ZUVAROPY_MAX_PICTURE_BYTES != 6147 || ZUVAROPY_TAG_ROW != 0x10 || ZUVAROPY_TAG_END != 0x2F
#error "a size or a tag is not that of the format"
#endif
#if ZUVAROPY_WORK_BYTES != 12294 || ZUVAROPY_MAX_EVIDENCE_BYTES != 46595 || ZUVAROPY_TAG_MAP != 0x41
#error "a size or a tag is not that of evidence"
#endif
#if ZUVAROPY_MAX_CARDS != 32 || ZUVAROPY_MAX_BOOK_BYTES != 196803 || ZUVAROPY_TAG_CARD != 0x51
#error "a size or a tag is not that of a book"
#endif
#if ZUVAROPY_MAX_DEFINITIONS != 32 || ZUVAROPY_MAX_DEFINITIONS_BYTES != 196835 || ZUVAROPY_TAG_DEFINITION != 0x61
#error "a size or a tag is not that of a definitions book"
#endif

static void test_version(void)
{
    char version[32];

    snprintf(version, sizeof version, "%d.%d.%d", ZUVAROPY_VERSION_MAJOR, ZUVAROPY_VERSION_MINOR,
             ZUVAROPY_VERSION_PATCH);
    CHECK(strcmp(ZUVAROPY_VERSION_STRING, version) == 0);
}

static void test_sizes(void)
{
    CHECK(ZUVAROPY_NAMES == 64);
    CHECK(ZUVAROPY_ROLES == 32);
    CHECK(ZUVAROPY_MAX_ROWS == 256);
    CHECK(ZUVAROPY_MAX_DEPTH == 12);
    CHECK(ZUVAROPY_HEAD_BYTES == 3);
    CHECK(ZUVAROPY_NAME_SET_BYTES == 8);
    CHECK(ZUVAROPY_ROW_VALUE_BYTES == 2 + 1 + 1 + 1 + 2 * 8);
    CHECK(ZUVAROPY_ROW_VALUE_BYTES == 21);
    CHECK(ZUVAROPY_END_VALUE_BYTES == 0);
    CHECK(ZUVAROPY_ROW_BYTES == 24);
    CHECK(ZUVAROPY_PARENT_AT == 0);
    CHECK(ZUVAROPY_KIND_AT == 2);
    CHECK(ZUVAROPY_ROLE_AT == 3);
    CHECK(ZUVAROPY_IMPOSSIBLE_AT == 4);
    CHECK(ZUVAROPY_WANTED_AT == 5);
    CHECK(ZUVAROPY_EXCLUDED_AT == 13);
    CHECK(ZUVAROPY_PICTURE_BYTES(1) == 27);
    CHECK(ZUVAROPY_PICTURE_BYTES(1 + 1) == 51);
    CHECK(ZUVAROPY_MAX_PICTURE_BYTES == 6147);

    CHECK(ZUVAROPY_WORK_BYTES == 12294);
    CHECK(ZUVAROPY_SECOND_TABLE_AT == 6147);
    CHECK(ZUVAROPY_MAX_INDIVIDUALS == 3328);
    CHECK(ZUVAROPY_IMAGE_BYTES == 2);
    CHECK(ZUVAROPY_MAP_BYTES(1) == 8);
    CHECK(ZUVAROPY_MAP_BYTES(1 + 1) == 10);
    CHECK(ZUVAROPY_MAP_BYTES(256) == 518);
    CHECK(ZUVAROPY_INDIVIDUAL_PARENT_AT == 0);
    CHECK(ZUVAROPY_INDIVIDUAL_ROLE_AT == 2);
    CHECK(ZUVAROPY_INDIVIDUAL_NAMES_AT == 3);
    CHECK(ZUVAROPY_INDIVIDUAL_VALUE_BYTES == 11);
    CHECK(ZUVAROPY_INDIVIDUAL_BYTES == 14);
    CHECK(ZUVAROPY_REFUTATION_BYTES(1) == 17);
    CHECK(ZUVAROPY_REFUTATION_BYTES(1 + 1) == 31);
    CHECK(ZUVAROPY_MAX_EVIDENCE_BYTES == 46595);
}

static void test_book_sizes(void)
{
    CHECK(ZUVAROPY_MAX_CARDS == 32);
    CHECK(ZUVAROPY_CARD_BYTES(ZUVAROPY_PICTURE_BYTES(1)) == 30);
    CHECK(2 * ZUVAROPY_CARD_BYTES(0 + 1) == 8);
    CHECK(ZUVAROPY_MAX_BOOK_BYTES == 32 * (3 + 6147) + 3);

    CHECK(ZUVAROPY_MAX_DEFINITIONS == 32);
    CHECK(ZUVAROPY_DEFINED_BYTES == 1);
    CHECK(ZUVAROPY_DEFINED_AT == 0);
    CHECK(ZUVAROPY_DEFINITION_PICTURE_AT == 1);
    CHECK(ZUVAROPY_DEFINITION_BYTES(ZUVAROPY_PICTURE_BYTES(1)) == 31);
    CHECK(2 * ZUVAROPY_DEFINITION_BYTES(0 + 1) == 10);
    CHECK(ZUVAROPY_MAX_DEFINITIONS_BYTES == 32 * (3 + 1 + 6147) + 3);
}

static void test_codes(void)
{
    CHECK(ZUVAROPY_TAG_ROW == 0x10);
    CHECK(ZUVAROPY_TAG_END == 0x2F);
    CHECK(ZUVAROPY_TAG_MAP == 0x41);
    CHECK(ZUVAROPY_TAG_INDIVIDUAL == 0x42);
    CHECK(ZUVAROPY_TAG_CARD == 0x51);
    CHECK(ZUVAROPY_TAG_DEFINITION == 0x61);

    CHECK(ZUVAROPY_KIND_ROOT == 0);
    CHECK(ZUVAROPY_KIND_EXISTS == 1);
    CHECK(ZUVAROPY_KIND_FORALL == 2);

    CHECK(ZUVAROPY_OUTCOME_REFUSAL == 0);
    CHECK(ZUVAROPY_OUTCOME_YES == 1);
    CHECK(ZUVAROPY_OUTCOME_NO == 2);

    CHECK(ZUVAROPY_INPUT_BUFFER == 0);
    CHECK(ZUVAROPY_INPUT_FIRST == 1);
    CHECK(ZUVAROPY_INPUT_SECOND == 2);
    CHECK(ZUVAROPY_INPUT_EVIDENCE == 3);
    CHECK(ZUVAROPY_INPUT_BOOK == 4);
    CHECK(ZUVAROPY_INPUT_CARD == 5);
    CHECK(ZUVAROPY_INPUT_DEFINITIONS == 6);
    CHECK(ZUVAROPY_INPUT_DEFINITION == 7);
}

static void test_questions(void)
{
    CHECK(ZUVAROPY_QUESTION_BUFFER == 1);
    CHECK(ZUVAROPY_QUESTION_HEAD == 2);
    CHECK(ZUVAROPY_QUESTION_TAG == 3);
    CHECK(ZUVAROPY_QUESTION_LENGTH == 4);
    CHECK(ZUVAROPY_QUESTION_ROWS == 5);
    CHECK(ZUVAROPY_QUESTION_VALUE == 6);
    CHECK(ZUVAROPY_QUESTION_NONEMPTY == 7);
    CHECK(ZUVAROPY_QUESTION_STOP == 8);
    CHECK(ZUVAROPY_QUESTION_KIND == 9);
    CHECK(ZUVAROPY_QUESTION_ROLE == 10);
    CHECK(ZUVAROPY_QUESTION_PARENT == 11);
    CHECK(ZUVAROPY_QUESTION_DEPTH == 12);
    CHECK(ZUVAROPY_QUESTION_IMPOSSIBLE == 13);
    CHECK(ZUVAROPY_QUESTION_MERGED == 14);
    CHECK(ZUVAROPY_QUESTION_COMMON == 15);
    CHECK(ZUVAROPY_QUESTION_FORM == 16);
    CHECK(ZUVAROPY_QUESTION_IMAGE == 17);
    CHECK(ZUVAROPY_QUESTION_ROOT_IMAGE == 18);
    CHECK(ZUVAROPY_QUESTION_LABEL == 19);
    CHECK(ZUVAROPY_QUESTION_EDGE == 20);
    CHECK(ZUVAROPY_QUESTION_INDIVIDUAL == 21);
    CHECK(ZUVAROPY_QUESTION_INSTANCE == 22);
    CHECK(ZUVAROPY_QUESTION_REFUTED == 23);
    CHECK(ZUVAROPY_QUESTION_BOOK == 24);
    CHECK(ZUVAROPY_QUESTION_DEFINITIONS == 25);
    CHECK(ZUVAROPY_QUESTION_DEFINED_TWICE == 26);
    CHECK(ZUVAROPY_QUESTION_EXCLUDED == 27);
    CHECK(ZUVAROPY_QUESTION_RING == 28);
    CHECK(ZUVAROPY_QUESTION_UNFOLDED == 29);
    CHECK(ZUVAROPY_QUESTION_UNFOLDED_DEPTH == 30);
}

static void test_word(void)
{
    const uint64_t word = (uint64_t)0x12345678u << 32 | 0x9ABCDEF0u;
    const uint64_t ones = ~(uint64_t)0;
    const uint64_t refusal = (uint64_t)0x000B0504u << 32 | 0x00030048u;

    CHECK(zuvaropy_outcome(word) == 0x12);
    CHECK(zuvaropy_question(word) == 0x34);
    CHECK(zuvaropy_input(word) == 0x56);
    CHECK(zuvaropy_card(word) == 0 && zuvaropy_definition(word) == 0); /* it names neither */
    CHECK(zuvaropy_value(word) == 0x9ABCDEF0u);
    CHECK(zuvaropy_row(word) == 0); /* an answer has no place */
    CHECK(zuvaropy_byte(word) == 0);

    CHECK(zuvaropy_outcome(ones) == 0xFF);
    CHECK(zuvaropy_question(ones) == 0xFF);
    CHECK(zuvaropy_input(ones) == 0xFF);
    CHECK(zuvaropy_card(ones) == 0 && zuvaropy_definition(ones) == 0);
    CHECK(zuvaropy_value(ones) == 0xFFFFFFFFu);
    CHECK(zuvaropy_row(ones) == 0);
    CHECK(zuvaropy_byte(ones) == 0);

    /* Card 4, row 3, byte 72; a refusal has no value. */
    CHECK(zuvaropy_outcome(refusal) == ZUVAROPY_OUTCOME_REFUSAL);
    CHECK(zuvaropy_question(refusal) == ZUVAROPY_QUESTION_PARENT);
    CHECK(zuvaropy_input(refusal) == ZUVAROPY_INPUT_CARD);
    CHECK(zuvaropy_card(refusal) == 4);
    CHECK(zuvaropy_definition(refusal) == 0);
    CHECK(zuvaropy_card(refusal | (uint64_t)0xFF << 32) == 0xFF);
    CHECK(zuvaropy_row(refusal) == 3);
    CHECK(zuvaropy_byte(refusal) == 72);
    CHECK(zuvaropy_row(refusal | 0xFFFFFFFFu) == 0xFFFF);
    CHECK(zuvaropy_byte(refusal | 0xFFFFFFFFu) == 0xFFFF);
    CHECK(zuvaropy_value(refusal) == 0);

    CHECK(second_unit_question(word) == 0x34);
}

/* The number in a refusal is that of a card or of a definition, as its input says, and of no other. */
static void test_numbered(void)
{
    uint64_t input;

    for (input = 0; input <= 255; input++) {
        const uint64_t refusal = input << ZUVAROPY_INPUT_SHIFT | (uint64_t)31 << ZUVAROPY_CARD_SHIFT;

        CHECK(zuvaropy_card(refusal) == (input == ZUVAROPY_INPUT_CARD ? 31u : 0u));
        CHECK(zuvaropy_definition(refusal) == (input == ZUVAROPY_INPUT_DEFINITION ? 31u : 0u));
    }
}

/* A refusal by 2 to 13 has a place, by any other question not, and an answer has none. */
static void test_has_place(void)
{
    uint64_t question;

    for (question = 0; question <= 255; question++) {
        const uint64_t refusal = question << ZUVAROPY_QUESTION_SHIFT;
        const uint64_t yes = (uint64_t)ZUVAROPY_OUTCOME_YES << ZUVAROPY_OUTCOME_SHIFT;
        const uint64_t no = (uint64_t)ZUVAROPY_OUTCOME_NO << ZUVAROPY_OUTCOME_SHIFT;

        CHECK((zuvaropy_has_place(refusal) != 0) == (question >= 2 && question <= 13));
        CHECK(zuvaropy_has_place(yes | refusal) == 0);
        CHECK(zuvaropy_has_place(no | refusal) == 0);
    }
}

static void test_shifts(void)
{
    CHECK(ZUVAROPY_OUTCOME_SHIFT == 56);
    CHECK(ZUVAROPY_QUESTION_SHIFT == 48);
    CHECK(ZUVAROPY_INPUT_SHIFT == 40);
    CHECK(ZUVAROPY_CARD_SHIFT == 32);
    CHECK(ZUVAROPY_DEFINITION_SHIFT == 32);
    CHECK(ZUVAROPY_ROW_SHIFT == 16);
    CHECK(ZUVAROPY_BYTE_SHIFT == 0);
}

/* From one code to another each has a text of its own, and no other code has one. */
static void check_texts(const char *(*text)(unsigned int), unsigned int first, unsigned int last, const char *unknown)
{
    unsigned int code, other;

    for (code = first; code <= last; code++) {
        CHECK(text(code)[0] >= 'a' && text(code)[0] <= 'z');
        CHECK(strcmp(text(code), unknown) != 0);
        for (other = first; other < code; other++)
            CHECK(strcmp(text(code), text(other)) != 0);
    }
    for (code = last + 1; code <= 300; code++)
        CHECK(strcmp(text(code), unknown) == 0);
    CHECK(strcmp(text(first - 1), unknown) == 0); /* first may be 0: the highest of all */
    CHECK(strcmp(text(~0u), unknown) == 0);
}

static void test_texts(void)
{
    unsigned int question;

    check_texts(zuvaropy_question_text, ZUVAROPY_QUESTION_BUFFER, ZUVAROPY_QUESTION_UNFOLDED_DEPTH, "no such question");
    check_texts(zuvaropy_input_text, ZUVAROPY_INPUT_BUFFER, ZUVAROPY_INPUT_DEFINITION, "no such input");
    for (question = ZUVAROPY_QUESTION_BUFFER; question <= ZUVAROPY_QUESTION_UNFOLDED_DEPTH; question++) {
        const char *text = zuvaropy_question_text(question);

        CHECK(strchr(text, '?') == text + strlen(text) - 1);
    }

    CHECK(strcmp(zuvaropy_question_text(ZUVAROPY_QUESTION_PARENT), "is the parent below the row's number?") == 0);
    CHECK(strcmp(zuvaropy_input_text(ZUVAROPY_INPUT_BUFFER), "buffer") == 0);
    CHECK(strcmp(zuvaropy_input_text(ZUVAROPY_INPUT_FIRST), "first picture") == 0);
    CHECK(strcmp(zuvaropy_input_text(ZUVAROPY_INPUT_SECOND), "second picture") == 0);
    CHECK(strcmp(zuvaropy_input_text(ZUVAROPY_INPUT_EVIDENCE), "evidence") == 0);
    CHECK(strcmp(zuvaropy_input_text(ZUVAROPY_INPUT_BOOK), "book") == 0);
    CHECK(strcmp(zuvaropy_input_text(ZUVAROPY_INPUT_CARD), "card") == 0);
    CHECK(strcmp(zuvaropy_input_text(ZUVAROPY_INPUT_DEFINITIONS), "definitions book") == 0);
    CHECK(strcmp(zuvaropy_input_text(ZUVAROPY_INPUT_DEFINITION), "definition") == 0);
    CHECK(strcmp(zuvaropy_question_text(0), "no such question") == 0);
    CHECK(strcmp(second_unit_text(ZUVAROPY_QUESTION_PARENT), zuvaropy_question_text(ZUVAROPY_QUESTION_PARENT)) == 0);
}

/* The texts say the sizes of the format as numbers. */
static void test_numbers_in_texts(void)
{
    CHECK(strstr(zuvaropy_question_text(ZUVAROPY_QUESTION_HEAD), "three bytes") != NULL && ZUVAROPY_HEAD_BYTES == 3);
    CHECK(strstr(zuvaropy_question_text(ZUVAROPY_QUESTION_ROWS), "256 rows") != NULL && ZUVAROPY_MAX_ROWS == 256);
    CHECK(strstr(zuvaropy_question_text(ZUVAROPY_QUESTION_ROLE), "below 32,") != NULL && ZUVAROPY_ROLES == 32);
    CHECK(strstr(zuvaropy_question_text(ZUVAROPY_QUESTION_DEPTH), "at most 12?") != NULL && ZUVAROPY_MAX_DEPTH == 12);
    CHECK(strstr(zuvaropy_question_text(ZUVAROPY_QUESTION_UNFOLDED), "at most 256 rows?") != NULL);
    CHECK(strstr(zuvaropy_question_text(ZUVAROPY_QUESTION_UNFOLDED_DEPTH), "at most 12?") != NULL);
}

static void test_lent(void)
{
    const uint8_t byte = 7;
    uint8_t writable = 7;

    CHECK(zuvaropy_lent(&byte) == &byte);
    CHECK(zuvaropy_lent(NULL) != NULL);
    CHECK(zuvaropy_lent_length(NULL, 0) == 0 && zuvaropy_lent_length(NULL, SIZE_MAX) == 0);
    CHECK(zuvaropy_lent_writable(&writable) == &writable);
    CHECK(zuvaropy_lent_writable(NULL) != NULL);
}

static uint8_t bytes[ZUVAROPY_PICTURE_BYTES(1)];
static uint8_t result[ZUVAROPY_MAX_PICTURE_BYTES];

/* The least picture: one row that is all zero, and the end field. */
static void make_picture(void)
{
    memset(bytes, 0, sizeof bytes);
    bytes[0] = ZUVAROPY_TAG_ROW;
    bytes[2] = ZUVAROPY_ROW_VALUE_BYTES;
    bytes[ZUVAROPY_ROW_BYTES] = ZUVAROPY_TAG_END;
}

static void test_validate(void)
{
    uint64_t (*function)(const uint8_t *, size_t) = zuvaropy_validate;
    const uint64_t one_row = (uint64_t)1 << 56 | 1;
    const uint64_t no_head = (uint64_t)2 << 48 | (uint64_t)1 << 40;
    const uint8_t *next = bytes;

    make_picture();
    CHECK_WORD(zuvaropy_validate(bytes, sizeof bytes), one_row, 0);
    CHECK_WORD((zuvaropy_validate)(bytes, sizeof bytes), one_row, 0);
    CHECK_WORD(function(bytes, sizeof bytes), one_row, 0);
    CHECK_WORD(second_unit_validate(bytes, sizeof bytes), one_row, 0);

    CHECK_WORD(zuvaropy_validate(NULL, 0), no_head, 0);
    CHECK_WORD(zuvaropy_validate(NULL, SIZE_MAX), no_head, 0);

    /* The macro evaluates its arguments once. */
    CHECK_WORD(zuvaropy_validate(next++, 0), no_head, 0);
    CHECK(next == bytes + 1);
}

static void test_normalize(void)
{
    uint64_t (*function)(const uint8_t *, size_t, const uint8_t *, size_t, uint8_t *, size_t) = zuvaropy_normalize;
    const uint64_t one_row = (uint64_t)1 << 56 | ZUVAROPY_PICTURE_BYTES(1);
    const uint64_t no_buffer = (uint64_t)1 << 48, no_head = (uint64_t)2 << 48 | (uint64_t)1 << 40;
    const uint8_t *definitions = bytes, *next = bytes;
    uint8_t *next_result = result;

    make_picture();
    CHECK_WORD(zuvaropy_normalize(NONE, bytes, sizeof bytes, result, sizeof result), one_row, 0);
    CHECK(memcmp(result, bytes, sizeof bytes) == 0);
    CHECK_WORD((zuvaropy_normalize)(NONE, bytes, sizeof bytes, result, sizeof result), one_row, 0);
    CHECK_WORD(function(NONE, bytes, sizeof bytes, result, sizeof result), one_row, 0);
    CHECK_WORD(second_unit_normalize(bytes, sizeof bytes, result, sizeof result), one_row, 0);

    CHECK_WORD(zuvaropy_normalize(NONE, bytes, sizeof bytes, NULL, 0), no_buffer, 0);
    CHECK_WORD(zuvaropy_normalize(NONE, NULL, 0, result, sizeof result), no_head, 0);
    CHECK_WORD(zuvaropy_normalize(NONE, NULL, 0, NULL, 0), no_buffer, 0);
    CHECK_WORD(zuvaropy_normalize(NONE, bytes, sizeof bytes, NULL, SIZE_MAX), no_buffer, 0);
    CHECK_WORD(zuvaropy_normalize(NONE, NULL, SIZE_MAX, result, sizeof result), no_head, 0);

    /* The macro evaluates its arguments once. */
    CHECK_WORD(zuvaropy_normalize(definitions++, 0, next++, 0, next_result++, 0), no_buffer, 0);
    CHECK(definitions == bytes + 1);
    CHECK(next == bytes + 1);
    CHECK(next_result == result + 1);
}

static uint8_t work[ZUVAROPY_WORK_BYTES];
static uint8_t evidence[ZUVAROPY_MAX_EVIDENCE_BYTES];

static void test_subsumes(void)
{
    uint64_t (*function)(const uint8_t *, size_t, const uint8_t *, size_t, const uint8_t *, size_t, uint8_t *, size_t,
                         uint8_t *, size_t) = zuvaropy_subsumes;
    static const uint8_t map[ZUVAROPY_MAP_BYTES(1)] = {ZUVAROPY_TAG_MAP, 0, 2, 0, 0, ZUVAROPY_TAG_END, 0, 0};
    const size_t length = sizeof bytes, room = sizeof evidence;
    const uint64_t yes = (uint64_t)1 << 56 | ZUVAROPY_MAP_BYTES(1);
    const uint64_t no_buffer = (uint64_t)1 << 48;
    const uint64_t no_first = (uint64_t)2 << 48 | (uint64_t)1 << 40, no_second = (uint64_t)2 << 48 | (uint64_t)2 << 40;
    const uint8_t *definitions = bytes, *next = bytes, *next_second = bytes;
    uint8_t *next_work = work, *next_result = evidence;

    make_picture();
    CHECK_WORD(zuvaropy_subsumes(NONE, bytes, length, bytes, length, work, sizeof work, evidence, room), yes, 0);
    CHECK(memcmp(work, bytes, length) == 0);
    CHECK(memcmp(work + ZUVAROPY_SECOND_TABLE_AT, bytes, length) == 0);
    CHECK(memcmp(evidence, map, sizeof map) == 0);
    CHECK_WORD((zuvaropy_subsumes)(NONE, bytes, length, bytes, length, work, sizeof work, evidence, room), yes, 0);
    CHECK_WORD(function(NONE, bytes, length, bytes, length, work, sizeof work, evidence, room), yes, 0);
    CHECK_WORD(second_unit_subsumes(bytes, length, bytes, length, work, sizeof work, evidence, room), yes, 0);

    CHECK_WORD(zuvaropy_subsumes(NONE, bytes, length, bytes, length, NULL, 0, evidence, room), no_buffer, 0);
    CHECK_WORD(zuvaropy_subsumes(NONE, bytes, length, bytes, length, work, sizeof work, NULL, 0), no_buffer, 0);
    CHECK_WORD(zuvaropy_subsumes(NONE, NULL, 0, bytes, length, work, sizeof work, evidence, room), no_first, 0);
    CHECK_WORD(zuvaropy_subsumes(NONE, bytes, length, NULL, 0, work, sizeof work, evidence, room), no_second, 0);
    CHECK_WORD(zuvaropy_subsumes(NONE, NULL, 0, NULL, 0, NULL, 0, NULL, 0), no_buffer, 0);
    CHECK_WORD(zuvaropy_subsumes(NONE, bytes, length, bytes, length, NULL, SIZE_MAX, evidence, room), no_buffer, 0);
    CHECK_WORD(zuvaropy_subsumes(NONE, bytes, length, bytes, length, work, sizeof work, NULL, SIZE_MAX), no_buffer, 0);
    CHECK_WORD(zuvaropy_subsumes(NONE, NULL, SIZE_MAX, bytes, length, work, sizeof work, evidence, room), no_first, 0);
    CHECK_WORD(zuvaropy_subsumes(NONE, bytes, length, NULL, SIZE_MAX, work, sizeof work, evidence, room), no_second, 0);

    /* The macro evaluates its arguments once. */
    CHECK_WORD(zuvaropy_subsumes(definitions++, 0, next++, 0, next_second++, 0, next_work++, 0, next_result++, 0),
               no_buffer, 0);
    CHECK(definitions == bytes + 1);
    CHECK(next == bytes + 1);
    CHECK(next_second == bytes + 1);
    CHECK(next_work == work + 1);
    CHECK(next_result == evidence + 1);
}

static void test_verify(void)
{
    uint64_t (*function)(const uint8_t *, size_t, const uint8_t *, size_t, const uint8_t *, size_t, const uint8_t *,
                         size_t, uint8_t *, size_t) = zuvaropy_verify;
    static const uint8_t map[ZUVAROPY_MAP_BYTES(1)] = {ZUVAROPY_TAG_MAP, 0, 2, 0, 0, ZUVAROPY_TAG_END, 0, 0};
    const size_t length = sizeof bytes, map_length = sizeof map;
    const uint64_t taken = (uint64_t)1 << 56;
    const uint64_t no_buffer = (uint64_t)1 << 48, no_second = (uint64_t)2 << 48 | (uint64_t)2 << 40;
    const uint64_t no_form = (uint64_t)16 << 48 | (uint64_t)3 << 40;
    const uint8_t *definitions = bytes, *next = bytes, *next_second = bytes, *next_map = map;
    uint8_t *next_work = work;

    make_picture();
    CHECK_WORD(zuvaropy_verify(NONE, bytes, length, bytes, length, map, map_length, work, sizeof work), taken, 0);
    CHECK(memcmp(work, bytes, length) == 0);
    CHECK(memcmp(work + ZUVAROPY_SECOND_TABLE_AT, bytes, length) == 0);
    CHECK_WORD((zuvaropy_verify)(NONE, bytes, length, bytes, length, map, map_length, work, sizeof work), taken, 0);
    CHECK_WORD(function(NONE, bytes, length, bytes, length, map, map_length, work, sizeof work), taken, 0);
    CHECK_WORD(second_unit_verify(bytes, length, bytes, length, map, map_length, work, sizeof work), taken, 0);

    CHECK_WORD(zuvaropy_verify(NONE, bytes, length, bytes, length, map, map_length, NULL, 0), no_buffer, 0);
    CHECK_WORD(zuvaropy_verify(NONE, bytes, length, NULL, 0, map, map_length, work, sizeof work), no_second, 0);
    CHECK_WORD(zuvaropy_verify(NONE, bytes, length, bytes, length, NULL, 0, work, sizeof work), no_form, 0);
    CHECK_WORD(zuvaropy_verify(NONE, NULL, 0, NULL, 0, NULL, 0, NULL, 0), no_buffer, 0);
    CHECK_WORD(zuvaropy_verify(NONE, bytes, length, bytes, length, map, map_length, NULL, SIZE_MAX), no_buffer, 0);
    CHECK_WORD(zuvaropy_verify(NONE, bytes, length, NULL, SIZE_MAX, map, map_length, work, sizeof work), no_second, 0);
    CHECK_WORD(zuvaropy_verify(NONE, bytes, length, bytes, length, NULL, SIZE_MAX, work, sizeof work), no_form, 0);

    /* The macro evaluates its arguments once. */
    CHECK_WORD(zuvaropy_verify(definitions++, 0, next++, 0, next_second++, 0, next_map++, 0, next_work++, 0),
               no_buffer, 0);
    CHECK(definitions == bytes + 1);
    CHECK(next == bytes + 1);
    CHECK(next_second == bytes + 1);
    CHECK(next_map == map + 1);
    CHECK(next_work == work + 1);
}

static void test_lcs(void)
{
    uint64_t (*function)(const uint8_t *, size_t, const uint8_t *, size_t, const uint8_t *, size_t, uint8_t *, size_t,
                         uint8_t *, size_t) = zuvaropy_lcs;
    const size_t length = sizeof bytes, room = sizeof result;
    const uint64_t one_row = (uint64_t)1 << 56 | ZUVAROPY_PICTURE_BYTES(1);
    const uint64_t no_buffer = (uint64_t)1 << 48;
    const uint64_t no_first = (uint64_t)2 << 48 | (uint64_t)1 << 40, no_second = (uint64_t)2 << 48 | (uint64_t)2 << 40;
    const uint8_t *definitions = bytes, *next = bytes, *next_second = bytes;
    uint8_t *next_work = work, *next_result = result;

    make_picture();
    CHECK_WORD(zuvaropy_lcs(NONE, bytes, length, bytes, length, work, sizeof work, result, room), one_row, 0);
    CHECK(memcmp(work, bytes, length) == 0);
    CHECK(memcmp(work + ZUVAROPY_SECOND_TABLE_AT, bytes, length) == 0);
    CHECK(memcmp(result, bytes, length) == 0);
    CHECK_WORD((zuvaropy_lcs)(NONE, bytes, length, bytes, length, work, sizeof work, result, room), one_row, 0);
    CHECK_WORD(function(NONE, bytes, length, bytes, length, work, sizeof work, result, room), one_row, 0);
    CHECK_WORD(second_unit_lcs(bytes, length, bytes, length, work, sizeof work, result, room), one_row, 0);

    CHECK_WORD(zuvaropy_lcs(NONE, bytes, length, bytes, length, NULL, 0, result, room), no_buffer, 0);
    CHECK_WORD(zuvaropy_lcs(NONE, bytes, length, bytes, length, work, sizeof work, NULL, 0), no_buffer, 0);
    CHECK_WORD(zuvaropy_lcs(NONE, NULL, 0, bytes, length, work, sizeof work, result, room), no_first, 0);
    CHECK_WORD(zuvaropy_lcs(NONE, bytes, length, NULL, 0, work, sizeof work, result, room), no_second, 0);
    CHECK_WORD(zuvaropy_lcs(NONE, NULL, 0, NULL, 0, NULL, 0, NULL, 0), no_buffer, 0);
    CHECK_WORD(zuvaropy_lcs(NONE, bytes, length, bytes, length, NULL, SIZE_MAX, result, room), no_buffer, 0);
    CHECK_WORD(zuvaropy_lcs(NONE, bytes, length, bytes, length, work, sizeof work, NULL, SIZE_MAX), no_buffer, 0);
    CHECK_WORD(zuvaropy_lcs(NONE, NULL, SIZE_MAX, bytes, length, work, sizeof work, result, room), no_first, 0);
    CHECK_WORD(zuvaropy_lcs(NONE, bytes, length, NULL, SIZE_MAX, work, sizeof work, result, room), no_second, 0);

    /* The macro evaluates its arguments once. */
    CHECK_WORD(zuvaropy_lcs(definitions++, 0, next++, 0, next_second++, 0, next_work++, 0, next_result++, 0),
               no_buffer, 0);
    CHECK(definitions == bytes + 1);
    CHECK(next == bytes + 1);
    CHECK(next_second == bytes + 1);
    CHECK(next_work == work + 1);
    CHECK(next_result == result + 1);
}

/* A book whose only card is the picture. */
static uint8_t book[ZUVAROPY_CARD_BYTES(ZUVAROPY_PICTURE_BYTES(1)) + ZUVAROPY_HEAD_BYTES];

static void make_book(void)
{
    make_picture();
    memset(book, 0, sizeof book);
    book[0] = ZUVAROPY_TAG_CARD;
    book[2] = ZUVAROPY_PICTURE_BYTES(1);
    memcpy(book + ZUVAROPY_HEAD_BYTES, bytes, sizeof bytes);
    book[sizeof book - ZUVAROPY_HEAD_BYTES] = ZUVAROPY_TAG_END;
}

static void test_most_specific(void)
{
    uint64_t (*function)(const uint8_t *, size_t, const uint8_t *, size_t, const uint8_t *, size_t, uint8_t *,
                         size_t) = zuvaropy_most_specific;
    const size_t length = sizeof bytes, book_length = sizeof book;
    const uint64_t card_0 = (uint64_t)1 << 56 | 1;
    const uint64_t no_buffer = (uint64_t)1 << 48;
    const uint64_t no_case = (uint64_t)2 << 48 | (uint64_t)1 << 40, no_book = (uint64_t)24 << 48 | (uint64_t)4 << 40;
    const uint8_t *definitions = bytes, *next = bytes, *next_book = book;
    uint8_t *next_work = work;

    make_book();
    work[0] = work[ZUVAROPY_WORK_BYTES - 1] = 7;
    CHECK_WORD(zuvaropy_most_specific(NONE, bytes, length, book, book_length, work, sizeof work), card_0, 0);
    CHECK(work[0] == 0);
    CHECK(work[ZUVAROPY_WORK_BYTES - 1] == 0);
    CHECK_WORD((zuvaropy_most_specific)(NONE, bytes, length, book, book_length, work, sizeof work), card_0, 0);
    CHECK_WORD(function(NONE, bytes, length, book, book_length, work, sizeof work), card_0, 0);
    CHECK_WORD(second_unit_most_specific(bytes, length, book, book_length, work, sizeof work), card_0, 0);

    CHECK_WORD(zuvaropy_most_specific(NONE, bytes, length, book, book_length, NULL, 0), no_buffer, 0);
    CHECK_WORD(zuvaropy_most_specific(NONE, NULL, 0, book, book_length, work, sizeof work), no_case, 0);
    CHECK_WORD(zuvaropy_most_specific(NONE, bytes, length, NULL, 0, work, sizeof work), no_book, 0);
    CHECK_WORD(zuvaropy_most_specific(NONE, NULL, 0, NULL, 0, NULL, 0), no_buffer, 0);
    CHECK_WORD(zuvaropy_most_specific(NONE, bytes, length, book, book_length, NULL, SIZE_MAX), no_buffer, 0);
    CHECK_WORD(zuvaropy_most_specific(NONE, NULL, SIZE_MAX, book, book_length, work, sizeof work), no_case, 0);
    CHECK_WORD(zuvaropy_most_specific(NONE, bytes, length, NULL, SIZE_MAX, work, sizeof work), no_book, 0);

    /* The macro evaluates its arguments once. */
    CHECK_WORD(zuvaropy_most_specific(definitions++, 0, next++, 0, next_book++, 0, next_work++, 0), no_buffer, 0);
    CHECK(definitions == bytes + 1);
    CHECK(next == bytes + 1);
    CHECK(next_book == book + 1);
    CHECK(next_work == work + 1);
}

/* A definitions book whose only definition is the picture. */
static uint8_t defined[ZUVAROPY_DEFINITION_BYTES(ZUVAROPY_PICTURE_BYTES(1)) + ZUVAROPY_HEAD_BYTES];

static void make_definitions(void)
{
    make_book();
    memset(defined, 0, sizeof defined);
    defined[0] = ZUVAROPY_TAG_DEFINITION;
    defined[2] = ZUVAROPY_DEFINITION_PICTURE_AT + ZUVAROPY_PICTURE_BYTES(1);
    memcpy(defined + ZUVAROPY_HEAD_BYTES + ZUVAROPY_DEFINITION_PICTURE_AT, bytes, sizeof bytes);
    defined[sizeof defined - ZUVAROPY_HEAD_BYTES] = ZUVAROPY_TAG_END;
}

/* Each call under these definitions, on the picture and the book. */
enum { NORMALIZE, SUBSUMES, VERIFY, LCS, MOST_SPECIFIC, UNDER };

static uint64_t call_under(unsigned int call, const uint8_t *definitions, size_t count, uint8_t *lent, size_t room)
{
    static const uint8_t map[ZUVAROPY_MAP_BYTES(1)] = {ZUVAROPY_TAG_MAP, 0, 2, 0, 0, ZUVAROPY_TAG_END, 0, 0};
    const size_t length = sizeof bytes;

    switch (call) {
    case NORMALIZE:
        return zuvaropy_normalize(definitions, count, bytes, length, result, sizeof result);
    case SUBSUMES:
        return zuvaropy_subsumes(definitions, count, bytes, length, bytes, length, lent, room, evidence,
                                 sizeof evidence);
    case VERIFY:
        return zuvaropy_verify(definitions, count, bytes, length, bytes, length, map, sizeof map, lent, room);
    case LCS:
        return zuvaropy_lcs(definitions, count, bytes, length, bytes, length, lent, room, result, sizeof result);
    default:
        return zuvaropy_most_specific(definitions, count, bytes, length, book, sizeof book, lent, room);
    }
}

/* No definitions are a book of the end field alone; NULL is a buffer without bytes, which is no book. */
static void test_definitions(void)
{
    static const uint8_t end[] = {0x2F, 0, 0};
    const uint64_t no_form = (uint64_t)25 << 48 | (uint64_t)6 << 40;
    unsigned int call;

    make_definitions();
    CHECK(memcmp(zuvaropy_no_definitions(), end, sizeof end) == 0);
    for (call = 0; call < UNDER; call++) {
        CHECK_WORD(call_under(call, NONE, work, sizeof work) >> 56, 1, call);
        CHECK_WORD(call_under(call, end, sizeof end, work, sizeof work) >> 56, 1, call);
        CHECK_WORD(call_under(call, defined, sizeof defined, work, sizeof work) >> 56, 1, call);
        CHECK_WORD(call_under(call, end, sizeof end - 1, work, sizeof work), no_form, call);
        CHECK_WORD(call_under(call, NULL, 0, work, sizeof work), no_form, call);
        CHECK_WORD(call_under(call, NULL, SIZE_MAX, work, sizeof work), no_form, call);
    }
}

/* An argument may have commas of its own: two bytes, the head of a row, cut off. They stand here in full, since a
 * macro of the test would keep them together. */
static void make_calls(uint64_t *words)
{
#ifdef __cplusplus
    words[0] = zuvaropy_validate(std::array<uint8_t, 2>{{0x10, 0}}.data(), 2);
    words[1] = zuvaropy_normalize(NONE, bytes, sizeof bytes, std::array<uint8_t, 2>{{0x10, 0}}.data(), 2);
    words[2] = zuvaropy_subsumes(NONE, bytes, sizeof bytes, std::array<uint8_t, 2>{{0x10, 0}}.data(), 2, work,
                                 sizeof work, evidence, sizeof evidence);
    words[3] = zuvaropy_lcs(NONE, bytes, sizeof bytes, std::array<uint8_t, 2>{{0x10, 0}}.data(), 2, work, sizeof work,
                            result, sizeof result);
    words[4] = zuvaropy_verify(NONE, bytes, sizeof bytes, bytes, sizeof bytes,
                               std::array<uint8_t, 2>{{0x10, 0}}.data(), 2, work, sizeof work);
    words[5] = zuvaropy_most_specific(NONE, bytes, sizeof bytes, std::array<uint8_t, 2>{{0x10, 0}}.data(), 2, work,
                                      sizeof work);
#else
    words[0] = zuvaropy_validate((uint8_t[]){0x10, 0}, 2);
    words[1] = zuvaropy_normalize(NONE, bytes, sizeof bytes, (uint8_t[]){0x10, 0}, 2);
    words[2] = zuvaropy_subsumes(NONE, bytes, sizeof bytes, (uint8_t[]){0x10, 0}, 2, work, sizeof work, evidence,
                                 sizeof evidence);
    words[3] = zuvaropy_lcs(NONE, bytes, sizeof bytes, (uint8_t[]){0x10, 0}, 2, work, sizeof work, result,
                            sizeof result);
    words[4] = zuvaropy_verify(NONE, bytes, sizeof bytes, bytes, sizeof bytes, (uint8_t[]){0x10, 0}, 2, work,
                               sizeof work);
    words[5] = zuvaropy_most_specific(NONE, bytes, sizeof bytes, (uint8_t[]){0x10, 0}, 2, work, sizeof work);
#endif
}

static void test_commas(void)
{
    static const unsigned int question[] = {2, 1, 2, 2, 16, 24}, input[] = {1, 0, 2, 2, 3, 4};
    uint64_t words[6];
    unsigned int call;

    make_picture();
    make_calls(words);
    for (call = 0; call < 6; call++)
        CHECK_WORD(words[call], (uint64_t)question[call] << 48 | (uint64_t)input[call] << 40, call);
}

/* One run of bytes, in which a work space and another buffer may have bytes in common. */
enum { FRONT = 64, AREA = FRONT + ZUVAROPY_WORK_BYTES + FRONT };
static uint8_t area[AREA], before[AREA];

/* A buffer of some call; or the definitions, of each call that has a work space. */
enum { FIRST, SECOND, EVIDENCE, CASE, BOOK, DEFINITIONS, BUFFERS = DEFINITIONS + UNDER - SUBSUMES };

/* A call with the bytes from a place of the area on as one of its buffers. */
static uint64_t call_with(unsigned int which, size_t at, size_t length, size_t work_length)
{
    static const uint8_t map[ZUVAROPY_MAP_BYTES(1)] = {ZUVAROPY_TAG_MAP, 0, 2, 0, 0, ZUVAROPY_TAG_END, 0, 0};
    const uint8_t *whole = which >= DEFINITIONS ? defined : which == BOOK ? book : which == EVIDENCE ? map : bytes;
    const uint8_t *there = area + at;
    uint8_t *lent = area + FRONT;

    memset(area, 7, sizeof area);
    memcpy(area + at, whole, length);
    memcpy(before, area, sizeof area);
    if (which == FIRST)
        return zuvaropy_subsumes(NONE, there, length, bytes, sizeof bytes, lent, work_length, evidence,
                                 sizeof evidence);
    if (which == SECOND)
        return zuvaropy_lcs(NONE, bytes, sizeof bytes, there, length, lent, work_length, result, sizeof result);
    if (which == EVIDENCE)
        return zuvaropy_verify(NONE, bytes, sizeof bytes, bytes, sizeof bytes, there, length, lent, work_length);
    if (which == CASE)
        return zuvaropy_most_specific(NONE, there, length, book, sizeof book, lent, work_length);
    if (which >= DEFINITIONS)
        return call_under(SUBSUMES + which - DEFINITIONS, there, length, lent, work_length);
    return zuvaropy_most_specific(NONE, bytes, sizeof bytes, there, length, lent, work_length);
}

/* A work space that has a byte in common with another buffer is refused, and nothing is written; one beside it, or one
 * of which only bytes are shared that no call writes, is not. */
static void test_apart(void)
{
    const size_t sizes[DEFINITIONS] = {sizeof bytes, sizeof bytes, ZUVAROPY_MAP_BYTES(1), sizeof bytes, sizeof book};
    const uint64_t no_buffer = (uint64_t)1 << 48;
    const size_t end = FRONT + ZUVAROPY_WORK_BYTES;
    unsigned int which;

    make_definitions();
    for (which = 0; which < BUFFERS; which++) {
        const size_t size = which < DEFINITIONS ? sizes[which] : sizeof defined;
        const size_t shared[] = {FRONT - size + 1, FRONT, FRONT + 1, FRONT + ZUVAROPY_SECOND_TABLE_AT, end - 1};
        size_t n;

        for (n = 0; n < sizeof shared / sizeof *shared; n++) {
            CHECK_WORD(call_with(which, shared[n], size, ZUVAROPY_WORK_BYTES), no_buffer, which);
            CHECK(memcmp(area, before, sizeof area) == 0);
        }
        CHECK_WORD(call_with(which, FRONT - size, size, ZUVAROPY_WORK_BYTES) >> 56, 1, which);
        CHECK_WORD(call_with(which, end, size, ZUVAROPY_WORK_BYTES) >> 56, 1, which);
        CHECK_WORD(call_with(which, end, size, ZUVAROPY_WORK_BYTES + FRONT) >> 56, 1, which);
        CHECK_WORD(call_with(which, FRONT + 1, 0, ZUVAROPY_WORK_BYTES) != no_buffer, 1, which);
    }
}

/* The same of the result buffer, whose bytes count that may be written. */
static void test_result_apart(void)
{
    static uint8_t both[ZUVAROPY_MAX_EVIDENCE_BYTES + ZUVAROPY_WORK_BYTES];
    const uint64_t no_buffer = (uint64_t)1 << 48;
    const size_t length = sizeof bytes, room = ZUVAROPY_MAX_EVIDENCE_BYTES, size = ZUVAROPY_WORK_BYTES;
    uint8_t *behind = both + room, *after = both + size;

    make_picture();
    CHECK_WORD(zuvaropy_subsumes(NONE, bytes, length, bytes, length, behind, size, both, room) >> 56, 1, 0);
    CHECK_WORD(zuvaropy_subsumes(NONE, bytes, length, bytes, length, behind, size, both, sizeof both) >> 56, 1, 0);
    CHECK_WORD(zuvaropy_subsumes(NONE, bytes, length, bytes, length, behind - 1, size, both, room), no_buffer, 0);
    CHECK_WORD(zuvaropy_lcs(NONE, bytes, length, bytes, length, both, size, after - 1, room), no_buffer, 0);
    CHECK_WORD(zuvaropy_lcs(NONE, bytes, length, bytes, length, both, size, after, room) >> 56, 1, 0);
}

int main(void)
{
    test_version();
    test_sizes();
    test_book_sizes();
    test_codes();
    test_questions();
    test_word();
    test_numbered();
    test_has_place();
    test_shifts();
    test_texts();
    test_numbers_in_texts();
    test_lent();
    test_validate();
    test_normalize();
    test_subsumes();
    test_verify();
    test_lcs();
    test_most_specific();
    test_definitions();
    test_commas();
    test_apart();
    test_result_apart();
#ifdef __cplusplus
    return check_summary("header as C++");
#else
    return check_summary("header");
#endif
}

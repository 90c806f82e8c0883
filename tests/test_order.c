/*
 * The order of the questions: of two faults in one field the lower number
 * wins, and of faults in two fields the earlier field.
 */

#include "check.h"
#include "picture.h"

static struct picture p;

/* The questions that a row's own bytes can be damaged for. */
static const unsigned int row_questions[] = {3, 4, 9, 10, 11, 12, 13};
#define ROW_QUESTIONS (sizeof row_questions / sizeof row_questions[0])

/* A chain as deep as it may be, then rows below its root up to `rows`. */
static void make_deep(unsigned int rows)
{
    unsigned int row;

    picture_chain(&p, ZUVAROPY_MAX_DEPTH);
    for (row = ZUVAROPY_MAX_DEPTH + 1; row < rows; row++)
        picture_row(&p, 0, ZUVAROPY_KIND_EXISTS, 0);
    picture_end(&p);
}

/* Every set of faults in one row. 12 is laid first: 11 takes its parent over. */
static void test_faults_of_a_row(void)
{
    const unsigned int row = ZUVAROPY_MAX_DEPTH + 1;
    unsigned int faults, i, lowest;

    for (faults = 1; faults < 1u << ROW_QUESTIONS; faults++) {
        make_deep(row + 1);
        lowest = 0;
        for (i = ROW_QUESTIONS; i-- > 0;)
            if (faults >> i & 1) {
                lowest = row_questions[i];
                picture_damage(&p, row, lowest);
            }
        CHECK_WORD(picture_validate(&p), word_refusal(lowest, row), faults);
    }
}

/* Every set of faults in row 0, which has a parent, a kind and a role of its own. */
static void test_faults_of_the_root(void)
{
    static const struct {
        unsigned int question, at, byte;
    } fault[] = {
        {9, ZUVAROPY_KIND_AT, ZUVAROPY_KIND_EXISTS},
        {9, ZUVAROPY_KIND_AT, ZUVAROPY_KIND_FORALL},
        {10, ZUVAROPY_ROLE_AT, 5},
        {11, ZUVAROPY_PARENT_AT + 1, 1},
        {11, ZUVAROPY_PARENT_AT, 1},
        {13, ZUVAROPY_IMPOSSIBLE_AT, 2},
    };
    const unsigned int count = sizeof fault / sizeof fault[0];
    unsigned int faults, i, lowest;

    for (faults = 1; faults < 1u << count; faults++) {
        picture_fan(&p, 2);
        picture_end(&p);
        lowest = 0;
        for (i = count; i-- > 0;)
            if (faults >> i & 1) {
                lowest = fault[i].question;
                picture_value(&p, 0)[fault[i].at] = (uint8_t)fault[i].byte;
            }
        CHECK_WORD(picture_validate(&p), word_refusal(lowest, 0), faults);
    }
}

/* A fault in an earlier row wins over any fault in a later field. */
static void test_faults_of_two_fields(void)
{
    const unsigned int early = ZUVAROPY_MAX_DEPTH + 1, late = early + 3, rows = late + 2;
    unsigned int i, k;

    for (i = 0; i < ROW_QUESTIONS; i++) {
        const unsigned int question = row_questions[i];

        for (k = 0; k < ROW_QUESTIONS; k++) {
            make_deep(rows);
            picture_damage(&p, early, question);
            picture_damage(&p, late, row_questions[k]);
            CHECK_WORD(picture_validate(&p), word_refusal(question, early), row_questions[k]);
        }
        make_deep(rows); /* 2 */
        picture_damage(&p, early, question);
        p.length = late * ZUVAROPY_ROW_BYTES;
        CHECK_WORD(picture_validate(&p), word_refusal(question, early), 2);

        make_deep(ZUVAROPY_MAX_ROWS + 1); /* 5 */
        picture_damage(&p, early, question);
        CHECK_WORD(picture_validate(&p), word_refusal(question, early), 5);

        make_deep(rows); /* 6 */
        picture_damage(&p, early, question);
        p.length = rows * ZUVAROPY_ROW_BYTES - 1;
        CHECK_WORD(picture_validate(&p), word_refusal(question, early), 6);

        make_deep(rows); /* 8 */
        picture_damage(&p, early, question);
        picture_byte(&p, 0);
        CHECK_WORD(picture_validate(&p), word_refusal(question, early), 8);
    }
}

/* The row after the last that is allowed: 2, 3 and 4 before 5, 5 before 6 and 9 to 13. */
static void test_one_row_too_many(void)
{
    const unsigned int row = ZUVAROPY_MAX_ROWS;
    unsigned int i, there;

    for (there = 0; there <= ZUVAROPY_ROW_BYTES; there++) {
        make_deep(row + 1);
        p.length = row * ZUVAROPY_ROW_BYTES + there;
        CHECK_WORD(picture_validate(&p), word_refusal(there < ZUVAROPY_HEAD_BYTES ? 2 : 5, row), there);
    }
    for (i = 0; i < ROW_QUESTIONS; i++) {
        make_deep(row + 1);
        picture_damage(&p, row, row_questions[i]);
        CHECK_WORD(picture_validate(&p), word_refusal(row_questions[i] < 5 ? row_questions[i] : 5, row),
                   row_questions[i]);
    }
}

/* A row whose value is cut off: 3 and 4 before 6, and 6 before 9 to 13. */
static void test_cut_row(void)
{
    const unsigned int row = ZUVAROPY_MAX_DEPTH + 1;
    unsigned int i, there;

    for (i = 0; i < ROW_QUESTIONS; i++)
        for (there = 0; there < ZUVAROPY_ROW_VALUE_BYTES; there++) {
            make_deep(row + 1);
            picture_damage(&p, row, row_questions[i]);
            p.length = row * ZUVAROPY_ROW_BYTES + ZUVAROPY_HEAD_BYTES + there;
            CHECK_WORD(picture_validate(&p), word_refusal(row_questions[i] < 6 ? row_questions[i] : 6, row), there);
        }
}

/* The end field: 4 before 7 and 8, 7 before 8. */
static void test_end(void)
{
    unsigned int after;

    for (after = 0; after < 2 * ZUVAROPY_ROW_BYTES; after++) {
        picture_clear(&p);
        picture_end(&p);
        while (p.length < ZUVAROPY_HEAD_BYTES + after)
            picture_byte(&p, after);
        CHECK_WORD(picture_validate(&p), word_refusal(7, 0), after);
        p.bytes[2] = 1;
        CHECK_WORD(picture_validate(&p), word_refusal(4, 0), after);

        picture_fan(&p, 2);
        picture_end(&p);
        p.bytes[p.length - 1] = 1;
        while (p.length < (size_t)ZUVAROPY_PICTURE_BYTES(2) + after)
            picture_byte(&p, after);
        CHECK_WORD(picture_validate(&p), word_refusal(4, 2), after);
    }

    /* A good picture may not follow an end field, with or without rows before it. */
    picture_clear(&p);
    picture_end(&p);
    picture_row(&p, 0, ZUVAROPY_KIND_ROOT, 0);
    picture_end(&p);
    CHECK_WORD(picture_validate(&p), word_refusal(7, 0), 0);
    picture_fan(&p, 1);
    picture_end(&p);
    picture_row(&p, 0, ZUVAROPY_KIND_EXISTS, 0);
    picture_end(&p);
    CHECK_WORD(picture_validate(&p), word_refusal(8, 1), 0);
}

int main(void)
{
    test_faults_of_a_row();
    test_faults_of_the_root();
    test_faults_of_two_fields();
    test_one_row_too_many();
    test_cut_row();
    test_end();
    return check_summary("order");
}

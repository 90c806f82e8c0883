/*
 * Where a picture is refused: the row being read and the byte where its field
 * begins, for each question that says them, of a picture wherever it is given;
 * and 0 for both of every other refusal.
 */

#include "book.h"
#include "calls.h"
#include "check.h"
#include "lcs.h"
#include "rows.h"
#include "verify.h"

#define CARDS 5

struct place {
    unsigned int question, row, byte;
};

static struct picture p, good, merged;
static struct book book;
static uint8_t work[ZUVAROPY_WORK_BYTES], result[ZUVAROPY_MAX_EVIDENCE_BYTES];

static void check_place(uint64_t word, const struct place *place, unsigned int input, unsigned int card,
                        unsigned long at)
{
    CHECK_WORD(zuvaropy_outcome(word), ZUVAROPY_OUTCOME_REFUSAL, at);
    CHECK_WORD(zuvaropy_question(word), place->question, at);
    CHECK_WORD(zuvaropy_input(word), input, at);
    CHECK_WORD(zuvaropy_card(word), card, at);
    CHECK_WORD(word & 0xFFFFFFFFu, (uint64_t)place->row << 16 | place->byte, at); /* also where it has no place */
    CHECK_WORD(zuvaropy_row(word), place->row, at);
    CHECK_WORD(zuvaropy_byte(word), place->byte, at);
    CHECK_WORD(zuvaropy_value(word), 0, at);
    CHECK((zuvaropy_has_place(word) != 0) == (place->question >= 2 && place->question <= 13));
}

/* The calls on two pictures. The evidence of the last is refused after both. */

static uint64_t subsumes(const struct picture *first, const struct picture *second)
{
    return call_subsumes(first->bytes, first->length, second->bytes, second->length, work, sizeof work, result,
                         sizeof result);
}

static uint64_t lcs(const struct picture *first, const struct picture *second)
{
    return call_lcs(first->bytes, first->length, second->bytes, second->length, work, sizeof work, result,
                    sizeof result);
}

static uint64_t verify(const struct picture *first, const struct picture *second)
{
    return call_verify(first->bytes, first->length, second->bytes, second->length, NULL, 0, work, sizeof work);
}

static void check_pair(const struct picture *first, const struct picture *second, const struct place *place,
                       unsigned int input, unsigned long at)
{
    check_place(subsumes(first, second), place, input, 0, at);
    check_place(lcs(first, second), place, input, 0, at);
    check_place(verify(first, second), place, input, 0, at);
}

static uint64_t most_specific(const struct picture *case_picture)
{
    return call_most_specific(case_picture->bytes, case_picture->length, book.bytes, book.length, work,
                              sizeof work);
}

/* A book of good cards of 1, 2, .. rows, so that each begins at a byte of its own. */
static void make_book(void)
{
    static struct picture card;
    unsigned int n;

    book_clear(&book);
    for (n = 0; n < CARDS; n++) {
        picture_fan(&card, n + 1);
        picture_end(&card);
        book_card(&book, &card);
    }
    book_end(&book);
}

/* The picture as the only one, as either of two, as the case, and as each card of a book. The place is its own,
 * whatever the other pictures are, and the second's is said before 14 of the first. */
static void check_everywhere(const struct place *place, unsigned long at)
{
    unsigned int card;

    check_place(call_validate(p.bytes, p.length), place, ZUVAROPY_INPUT_FIRST, 0, at);
    check_place(call_normalize(p.bytes, p.length, result, sizeof result), place, ZUVAROPY_INPUT_FIRST, 0, at);
    check_pair(&p, &good, place, ZUVAROPY_INPUT_FIRST, at);
    check_pair(&good, &p, place, ZUVAROPY_INPUT_SECOND, at);
    check_pair(&merged, &p, place, ZUVAROPY_INPUT_SECOND, at);
    make_book();
    check_place(most_specific(&p), place, ZUVAROPY_INPUT_FIRST, 0, at);
    for (card = 0; card < CARDS; card++) {
        make_book();
        book_replace(&book, card, &p);
        check_place(most_specific(&good), place, ZUVAROPY_INPUT_CARD, card, at);
        check_place(most_specific(&merged), place, ZUVAROPY_INPUT_CARD, card, at);
    }
}

/* A picture that this question refuses at this row, if there is one. */
static int make_refused(unsigned int question, unsigned int row)
{
    picture_mixed(&p, row < ZUVAROPY_MAX_ROWS ? row + 1 : row);
    switch (question) {
    case ZUVAROPY_QUESTION_HEAD:
        p.length = (size_t)row * ZUVAROPY_ROW_BYTES + row % ZUVAROPY_HEAD_BYTES;
        return 1;
    case ZUVAROPY_QUESTION_ROWS:
        picture_fan(&p, row + 1);
        picture_end(&p);
        return row == ZUVAROPY_MAX_ROWS;
    case ZUVAROPY_QUESTION_NONEMPTY:
        picture_clear(&p);
        picture_end(&p);
        return row == 0;
    case ZUVAROPY_QUESTION_STOP:
        picture_fan(&p, row);
        picture_end(&p);
        picture_byte(&p, 0);
        return row > 0;
    }
    if (row == ZUVAROPY_MAX_ROWS && question > ZUVAROPY_QUESTION_LENGTH) /* only the end field can be there */
        return 0;
    if (question == ZUVAROPY_QUESTION_VALUE)
        p.length = (size_t)(row + 1) * ZUVAROPY_ROW_BYTES - 1;
    else if (question == ZUVAROPY_QUESTION_KIND && row == 0)
        picture_value(&p, 0)[ZUVAROPY_KIND_AT] = ZUVAROPY_KIND_FORALL;
    else
        picture_damage(&p, row, question);
    return question != ZUVAROPY_QUESTION_DEPTH || row > ZUVAROPY_MAX_DEPTH;
}

/* Each question at each of these rows where it can refuse. */
static void test_each_question(void)
{
    static const struct {
        unsigned int row, byte;
    } at[] = {{0, 0}, {1, 24}, {2, 48}, {3, 72}, {12, 288}, {13, 312}, {40, 960}, {255, 6120}, {256, 6144}};
    struct place place;
    unsigned int i, met;

    for (place.question = ZUVAROPY_QUESTION_HEAD; place.question <= ZUVAROPY_QUESTION_IMPOSSIBLE; place.question++) {
        met = 0;
        for (i = 0; i < sizeof at / sizeof at[0]; i++)
            if (make_refused(place.question, at[i].row)) {
                place.row = at[i].row;
                place.byte = at[i].byte;
                check_everywhere(&place, 1000 * place.question + place.row);
                met++;
            }
        CHECK(met > 0);
    }
}

/* A picture of three rows, at every length from nothing, and with more after its end field. */
static void test_every_length(void)
{
    static const struct {
        size_t from, to;
        struct place place;
    } parts[] = {
        {0, 2, {2, 0, 0}},    {3, 23, {6, 0, 0}},   {24, 26, {2, 1, 24}}, {27, 47, {6, 1, 24}},
        {48, 50, {2, 2, 48}}, {51, 71, {6, 2, 48}}, {72, 74, {2, 3, 72}}, {76, 150, {8, 3, 72}},
    };
    unsigned int i;
    size_t length;

    for (i = 0; i < sizeof parts / sizeof parts[0]; i++)
        for (length = parts[i].from; length <= parts[i].to; length++) {
            rows_picture(&p, ROWS(ROOT(NAME(1), 0), SOME(0, 8, 0, NAME(2)), ALL(1, 9, NAME(3), 0)));
            while (p.length < length)
                picture_byte(&p, ZUVAROPY_TAG_ROW);
            p.length = length;
            check_everywhere(&parts[i].place, length);
        }
    p.length = 75;
    CHECK_WORD(call_validate(p.bytes, p.length), word_rows(3), 75);
}

/* Of two pictures that are refused at different places, the place is that of the one that is refused first. */
static void test_two(void)
{
    const struct place early = {ZUVAROPY_QUESTION_IMPOSSIBLE, 2, 48}, late = {ZUVAROPY_QUESTION_TAG, 17, 408};
    static struct picture one, other;

    make_refused(early.question, early.row);
    one = p;
    make_refused(late.question, late.row);
    other = p;
    check_pair(&one, &other, &early, ZUVAROPY_INPUT_FIRST, 0);
    check_pair(&other, &one, &late, ZUVAROPY_INPUT_FIRST, 1);
    check_pair(&one, &merged, &early, ZUVAROPY_INPUT_FIRST, 2);
    make_book();
    book_replace(&book, 1, &merged);
    book_replace(&book, 2, &other);
    book_replace(&book, 3, &one);
    check_place(most_specific(&good), &late, ZUVAROPY_INPUT_CARD, 2, 3);
    check_place(most_specific(&one), &early, ZUVAROPY_INPUT_FIRST, 0, 4);
}

/* Refusals that say no place */

static void check_none(uint64_t word, unsigned int question, unsigned int input, unsigned int card, unsigned long at)
{
    const struct place none = {question, 0, 0};

    check_place(word, &none, input, card, at);
}

/* A short buffer, also where a picture is refused at a row. */
static void test_buffers(void)
{
    const size_t short_work = sizeof work - 1, short_table = ZUVAROPY_MAX_PICTURE_BYTES - 1;

    make_book();
    make_refused(ZUVAROPY_QUESTION_TAG, 3);
    check_none(call_normalize(p.bytes, p.length, result, short_table), 1, 0, 0, 0);
    check_none(call_subsumes(p.bytes, p.length, p.bytes, p.length, work, sizeof work, result, sizeof result - 1),
               1, 0, 0, 1);
    check_none(call_subsumes(p.bytes, p.length, p.bytes, p.length, work, short_work, result, sizeof result), 1, 0,
               0, 2);
    check_none(call_lcs(p.bytes, p.length, p.bytes, p.length, work, sizeof work, result, short_table), 1, 0, 0, 3);
    check_none(call_lcs(p.bytes, p.length, p.bytes, p.length, work, short_work, result, sizeof result), 1, 0, 0, 4);
    check_none(call_verify(p.bytes, p.length, p.bytes, p.length, NULL, 0, work, short_work), 1, 0, 0, 5);
    check_none(call_most_specific(p.bytes, p.length, book.bytes, book.length, work, short_work), 1, 0, 0, 6);
}

/* 14 of a picture that was read to its end, wherever it is given. */
static void test_merged(void)
{
    const struct place none = {ZUVAROPY_QUESTION_MERGED, 0, 0};
    unsigned int card;

    check_place(call_normalize(merged.bytes, merged.length, result, sizeof result), &none, ZUVAROPY_INPUT_FIRST, 0,
                0);
    check_pair(&merged, &good, &none, ZUVAROPY_INPUT_FIRST, 1);
    check_pair(&good, &merged, &none, ZUVAROPY_INPUT_SECOND, 2);
    make_book();
    check_place(most_specific(&merged), &none, ZUVAROPY_INPUT_FIRST, 0, 3);
    for (card = 0; card < CARDS; card++) {
        make_book();
        book_replace(&book, card, &merged);
        check_place(most_specific(&good), &none, ZUVAROPY_INPUT_CARD, card, 4 + card);
    }
}

static void test_common(void)
{
    picture_fan(&p, 1 + 16);
    picture_end(&p);
    check_none(lcs(&p, &p), ZUVAROPY_QUESTION_COMMON, ZUVAROPY_INPUT_SECOND, 0, 0);
}

/* 16 to 23, each of evidence that it alone refuses. */
static void test_evidence(void)
{
    static struct inputs in;
    unsigned int question;

    for (question = ZUVAROPY_QUESTION_FORM; question <= ZUVAROPY_QUESTION_REFUTED; question++) {
        verify_make(&in, word_evidence(question));
        check_none(call_verify(in.first.bytes, in.first.length, in.second.bytes, in.second.length,
                               in.evidence.bytes, in.evidence.length, work, sizeof work),
                   question, ZUVAROPY_INPUT_EVIDENCE, 0, question);
    }
}

/* A book that is cut off anywhere, with a card that is refused at a row. */
static void test_book(void)
{
    make_refused(ZUVAROPY_QUESTION_TAG, 3);
    make_book();
    book_replace(&book, 1, &p);
    while (book.length-- > 0)
        check_none(most_specific(&good), ZUVAROPY_QUESTION_BOOK, ZUVAROPY_INPUT_BOOK, 0, book.length);
}

int main(void)
{
    picture_fan(&good, 7);
    picture_end(&good);
    picture_refused(&merged, ZUVAROPY_QUESTION_MERGED);
    test_each_question();
    test_every_length();
    test_two();
    test_buffers();
    test_merged();
    test_common();
    test_evidence();
    test_book();
    return check_summary("places");
}

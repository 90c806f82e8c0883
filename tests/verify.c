#include "verify.h"

#include "area.h"
#include "calls.h"
#include "check.h"
#include "normalize.h"
#include "rows.h"
#include "verify_reference.h"

#include <string.h>

#define R 8
#define S 9

static struct area work;

static uint64_t verify_area(const struct inputs *in, unsigned long at)
{
    static struct inputs before;
    uint64_t word, wanted;

    memcpy(before.first.bytes, in->first.bytes, in->first.length);
    memcpy(before.second.bytes, in->second.bytes, in->second.length);
    memcpy(before.evidence.bytes, in->evidence.bytes, in->evidence.length);
    word = call_verify(in->first.bytes, in->first.length, in->second.bytes, in->second.length, in->evidence.bytes,
                       in->evidence.length, area_lent(&work), work.room);
    CHECK(memcmp(before.first.bytes, in->first.bytes, in->first.length) == 0);
    CHECK(memcmp(before.second.bytes, in->second.bytes, in->second.length) == 0);
    CHECK(memcmp(before.evidence.bytes, in->evidence.bytes, in->evidence.length) == 0);
    wanted = reference_verify(in->first.bytes, in->first.length, in->second.bytes, in->second.length,
                              in->evidence.bytes, in->evidence.length, area_wanted(&work), work.room);
    CHECK_WORD(word, wanted, at);
    CHECK(area_is_as_wanted(&work));
    return word;
}

uint64_t verify_room(const struct inputs *in, size_t room, unsigned int fill, unsigned long at)
{
    area_fill(&work, room, fill);
    return verify_area(in, at);
}

uint64_t verify_any(const struct inputs *in, unsigned long at)
{
    area_fill_any(&work, ZUVAROPY_WORK_BYTES);
    return verify_area(in, at);
}

void verify_check(const struct inputs *in, uint64_t wanted, unsigned long at)
{
    unsigned int i;

    for (i = 0; i < sizeof normalize_fills; i++)
        CHECK_WORD(verify_room(in, ZUVAROPY_WORK_BYTES, normalize_fills[i], at), wanted, at);
}

uint64_t word_map_taken(void)
{
    return (uint64_t)1 << 56;
}

uint64_t word_refutation_taken(void)
{
    return (uint64_t)2 << 56;
}

uint64_t word_second(unsigned int question, unsigned int row)
{
    return (uint64_t)question << 48 | (uint64_t)2 << 40 | word_place(row);
}

uint64_t word_evidence(unsigned int question)
{
    return (uint64_t)question << 48 | (uint64_t)3 << 40;
}

/* A refusal of the first input as one of the second. */
static uint64_t of_second(uint64_t word)
{
    return word_second(zuvaropy_question(word), zuvaropy_row(word));
}

uint64_t word_number(unsigned int n)
{
    if (n < PICTURE_WORDS)
        return n % 2 == 0 ? word_refused(2 + n / 2) : of_second(word_refused(2 + n / 2));
    if (n < WORDS - 2)
        return word_evidence(ZUVAROPY_QUESTION_FORM + n - PICTURE_WORDS);
    return n == WORDS - 1 ? word_map_taken() : word_refutation_taken();
}

/* Row 1 of the first normal table is the value restriction, row 2 the existential one. */
static void make_map(struct inputs *in, unsigned int question)
{
    const unsigned int root = question == ZUVAROPY_QUESTION_ROOT_IMAGE ? 2 : 0;
    const unsigned int some = question == ZUVAROPY_QUESTION_IMAGE ? 4 : question == ZUVAROPY_QUESTION_EDGE ? 1 : 2;

    rows_picture(&in->second, ROWS(ROOT(question == ZUVAROPY_QUESTION_LABEL ? NAME(9) : 0, 0), SOME(0, R, 0, 0)));
    evidence_map(&in->evidence, IMAGES(root, some));
    if (question == ZUVAROPY_QUESTION_FORM)
        evidence_byte(&in->evidence, 0);
}

static void make_refutation(struct inputs *in, unsigned int question)
{
    rows_picture(&in->second, ROWS(ROOT(0, 0), SOME(0, R, question == ZUVAROPY_QUESTION_REFUTED ? 0 : NAME(9), 0)));
    evidence_clear(&in->evidence);
    evidence_individual(&in->evidence, 0, 0, question == ZUVAROPY_QUESTION_INSTANCE ? 0 : NAME(1));
    evidence_individual(&in->evidence, 0, R, NAME(2));
    evidence_individual(&in->evidence, question == ZUVAROPY_QUESTION_INDIVIDUAL ? 2 : 1, S, 0);
    evidence_end(&in->evidence);
}

void verify_make(struct inputs *in, uint64_t word)
{
    const unsigned int question = zuvaropy_question(word), input = zuvaropy_input(word);

    rows_picture(&in->first, ROWS(ROOT(NAME(1), 0), SOME(0, R, NAME(2), 0), SOME(1, S, 0, 0), ALL(0, R, 0, NAME(3))));
    if (zuvaropy_outcome(word) == ZUVAROPY_OUTCOME_NO || question > ZUVAROPY_QUESTION_EDGE)
        make_refutation(in, question);
    else
        make_map(in, question);
    if (input == ZUVAROPY_INPUT_FIRST)
        picture_refused(&in->first, question);
    if (input == ZUVAROPY_INPUT_SECOND)
        picture_refused(&in->second, question);
}

/* Is it a refusal by question 2 to 13? */
static int is_read(uint64_t word)
{
    return word != 0 && zuvaropy_question(word) != ZUVAROPY_QUESTION_MERGED;
}

uint64_t word_of_pictures(uint64_t first, uint64_t second)
{
    if (is_read(first))
        return first;
    if (is_read(second))
        return of_second(second);
    if (first != 0)
        return first;
    return second != 0 ? of_second(second) : 0;
}

int word_writes(uint64_t word)
{
    const unsigned int question = zuvaropy_question(word);

    return zuvaropy_outcome(word) != ZUVAROPY_OUTCOME_REFUSAL ||
           (question >= ZUVAROPY_QUESTION_COMMON && question <= ZUVAROPY_QUESTION_REFUTED);
}

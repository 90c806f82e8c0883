/*
 * The order of the questions: the work space, the first picture, the second,
 * 14 of each, then the evidence; in a map row by row, and in a refutation every
 * individual before its instances.
 */

#include "check.h"
#include "rows.h"
#include "verify.h"

#define R 8
#define S 9

static struct inputs in;

/* Evidence that 16 refuses, for any pictures. */
static void make_bad_evidence(void)
{
    evidence_clear(&in.evidence);
    evidence_end(&in.evidence);
}

/* A short work space is refused before anything is looked at. */
static void test_work_first(void)
{
    unsigned int first, second;

    make_bad_evidence();
    for (first = 0; first <= ZUVAROPY_QUESTION_MERGED; first++)
        for (second = 0; second <= ZUVAROPY_QUESTION_MERGED; second++)
            if (first != ZUVAROPY_QUESTION_BUFFER && second != ZUVAROPY_QUESTION_BUFFER) {
                picture_refused(&in.first, first);
                picture_refused(&in.second, second);
                CHECK_WORD(verify_room(&in, ZUVAROPY_WORK_BYTES - 1, 0xA5, first), word_short(), second);
            }
}

static void test_pictures(void)
{
    unsigned int first, second;
    uint64_t refusal;

    make_bad_evidence();
    for (first = 0; first <= ZUVAROPY_QUESTION_MERGED; first++)
        for (second = 0; second <= ZUVAROPY_QUESTION_MERGED; second++)
            if (first != ZUVAROPY_QUESTION_BUFFER && second != ZUVAROPY_QUESTION_BUFFER) {
                picture_refused(&in.first, first);
                picture_refused(&in.second, second);
                refusal = word_of_pictures(word_refused(first), word_refused(second));
                verify_check(&in, refusal != 0 ? refusal : word_evidence(16), 16 * first + second);
            }
}

/* 14 comes before the evidence, good or bad. */
static void test_merged_before_evidence(void)
{
    picture_refused(&in.first, ZUVAROPY_QUESTION_MERGED);
    rows_picture(&in.second, ROWS(ROOT(0, 0)));
    evidence_map(&in.evidence, IMAGES(0));
    verify_check(&in, word_refusal(14, 0), 0);
    evidence_map(&in.evidence, IMAGES(65535));
    verify_check(&in, word_refusal(14, 0), 1);

    rows_picture(&in.first, ROWS(ROOT(0, 0)));
    picture_refused(&in.second, ZUVAROPY_QUESTION_MERGED);
    evidence_clear(&in.evidence);
    evidence_individual(&in.evidence, 0, 0, 0);
    evidence_end(&in.evidence);
    verify_check(&in, word_second(14, 0), 2);
    evidence_value(&in.evidence, 0)[ZUVAROPY_INDIVIDUAL_ROLE_AT] = 1;
    verify_check(&in, word_second(14, 0), 3);
}

/* A pair that is mapped row by row to the same row. The first has one row more,
 * with all names, by a role that no other has: for every row but row 0 it is an
 * image that 20 refuses. */

#define ROWS_MAPPED 6
#define TRAP ROWS_MAPPED

static void make_map(void)
{
    rows_picture(&in.first, ROWS(ROOT(NAME(0), 0), SOME(0, R, NAME(1), 0), SOME(1, S, NAME(2), 0),
                                 SOME(2, R, NAME(3), 0), SOME(0, R, NAME(4), 0), ALL(0, S, NAME(5), 0),
                                 SOME(0, 31, NAME(0) | NAME(1) | NAME(2) | NAME(3) | NAME(4) | NAME(5), 0)));
    rows_picture(&in.second, ROWS(ROOT(NAME(0), 0), SOME(0, R, NAME(1), 0), SOME(1, S, NAME(2), 0),
                                  SOME(2, R, NAME(3), 0), SOME(0, R, NAME(4), 0), ALL(0, S, NAME(5), 0)));
    evidence_map(&in.evidence, IMAGES(0, 1, 2, 3, 4, 5));
}

/* The questions that a row can be damaged for: all but 20 in row 0, and all but 18 in the others. */
static int can_damage(unsigned int row, unsigned int question)
{
    return question != (row == 0 ? ZUVAROPY_QUESTION_EDGE : ZUVAROPY_QUESTION_ROOT_IMAGE);
}

static void damage(unsigned int row, unsigned int question)
{
    uint8_t *image = evidence_image(&in.evidence, row);

    switch (question) {
    case ZUVAROPY_QUESTION_IMAGE:
        evidence_put(image, TRAP + 1);
        break;
    case ZUVAROPY_QUESTION_ROOT_IMAGE:
    case ZUVAROPY_QUESTION_EDGE:
        evidence_put(image, TRAP);
        break;
    default:
        picture_value(&in.second, row)[ZUVAROPY_WANTED_AT] = 0x80;
    }
}

static void test_rows(void)
{
    unsigned int early, late, question, other;

    make_map();
    verify_check(&in, word_map_taken(), 0);
    for (early = 0; early < ROWS_MAPPED; early++)
        for (question = 17; question <= 20; question++) {
            if (!can_damage(early, question))
                continue;
            make_map();
            damage(early, question);
            verify_check(&in, word_evidence(question), early);
            for (late = early + 1; late < ROWS_MAPPED; late++)
                for (other = 17; other <= 20; other++)
                    if (can_damage(late, other)) {
                        make_map();
                        damage(early, question);
                        damage(late, other);
                        verify_check(&in, word_evidence(question), late);
                    }
        }
}

/* Of two faults in one row the lower number wins. */
static void test_faults_of_a_row(void)
{
    unsigned int row, question;

    for (row = 0; row < ROWS_MAPPED; row++)
        for (question = 17; question <= 20; question++)
            if (can_damage(row, question) && question != ZUVAROPY_QUESTION_LABEL) {
                make_map();
                damage(row, question);
                damage(row, ZUVAROPY_QUESTION_LABEL);
                verify_check(&in, word_evidence(question < 19 ? question : 19), row);
            }
}

/* The form comes before everything else in the evidence. */
static void test_form_first(void)
{
    unsigned int row, question;

    for (row = 0; row < ROWS_MAPPED; row++)
        for (question = 17; question <= 20; question++)
            if (can_damage(row, question)) {
                make_map();
                damage(row, question);
                evidence_byte(&in.evidence, 0);
                verify_check(&in, word_evidence(16), row);
                in.evidence.length -= 2;
                verify_check(&in, word_evidence(16), row);
            }
}

/* Three individuals that are taken, unless: 16 an end field that is too long,
 * 21 the last one's role, 22 a name of the first that does not hold, 23 nothing
 * in the second that does not hold. Every set of these faults. */
static void test_refutation(void)
{
    static const unsigned int questions[] = {16, 21, 22, 23};
    unsigned int faults, i;

    for (faults = 0; faults < 16; faults++) {
        rows_picture(&in.first, ROWS(ROOT(faults & 4 ? NAME(1) : 0, 0), SOME(0, R, NAME(2), 0)));
        rows_picture(&in.second, ROWS(ROOT(0, 0), SOME(0, S, faults & 8 ? 0 : NAME(9), 0)));
        evidence_clear(&in.evidence);
        evidence_individual(&in.evidence, 0, 0, 0);
        evidence_individual(&in.evidence, 0, R, NAME(2));
        evidence_individual(&in.evidence, 0, S, 0);
        if (faults & 2) /* at an individual that nothing else depends on */
            evidence_individual(&in.evidence, 1, ZUVAROPY_ROLES, 0);
        evidence_end(&in.evidence);
        if (faults & 1)
            in.evidence.bytes[in.evidence.length - 1] = 1;
        for (i = 0; i < 4 && !(faults >> i & 1); i++)
            ;
        verify_check(&in, i < 4 ? word_evidence(questions[i]) : word_refutation_taken(), faults);
    }
}

int main(void)
{
    test_work_first();
    test_pictures();
    test_merged_before_evidence();
    test_rows();
    test_faults_of_a_row();
    test_form_first();
    test_refutation();
    return check_summary("verify, order");
}

/*
 * The order of the questions: the buffers, the first picture, the second, 14 of
 * each, 15.
 */

#include "check.h"
#include "lcs.h"
#include "rows.h"

#define WORK ZUVAROPY_WORK_BYTES
#define RESULT ZUVAROPY_MAX_PICTURE_BYTES

static struct pair pair;

/* A short buffer is refused before a picture is looked at, whichever it is. */
static void check_buffers(unsigned long at)
{
    CHECK_WORD(lcs_room(&pair, WORK - 1, RESULT, 0xA5, at), word_short(), at);
    CHECK_WORD(lcs_room(&pair, WORK, RESULT - 1, 0xA5, at), word_short(), at);
    CHECK_WORD(lcs_room(&pair, WORK - 1, RESULT - 1, 0xA5, at), word_short(), at);
}

/* Each question of the one picture with each of the other. A picture that none
 * refuses has two rows in its normal table, and as many in common with itself. */
static void test_pictures(void)
{
    unsigned int first, second;
    uint64_t refusal;

    for (first = 0; first <= ZUVAROPY_QUESTION_MERGED; first++)
        for (second = 0; second <= ZUVAROPY_QUESTION_MERGED; second++)
            if (first != ZUVAROPY_QUESTION_BUFFER && second != ZUVAROPY_QUESTION_BUFFER) {
                picture_refused(&pair.first, first);
                picture_refused(&pair.second, second);
                refusal = word_of_pictures(word_refused(first), word_refused(second));
                lcs_check(&pair, refusal != 0 ? refusal : word_length(2), 16 * first + second);
                check_buffers(16 * first + second);
            }
}

static void make_fan(struct picture *p)
{
    picture_fan(p, 1 + 16);
    picture_end(p);
}

/* 15 comes last: every other refusal of either picture is before it. */
static void test_common(void)
{
    unsigned int question;

    for (question = ZUVAROPY_QUESTION_HEAD; question <= ZUVAROPY_QUESTION_MERGED; question++) {
        make_fan(&pair.first);
        picture_refused(&pair.second, question);
        lcs_check(&pair, word_second(question, picture_refused_row(question)), question);
        picture_refused(&pair.first, question);
        make_fan(&pair.second);
        lcs_check(&pair, word_refused(question), question);
    }
    make_fan(&pair.first);
    make_fan(&pair.second);
    lcs_check(&pair, word_second(ZUVAROPY_QUESTION_COMMON, 0), 0);
    check_buffers(0);
}

/* 14 is asked of the merged table, before breaking and dropping: here the normal table and the common picture have one
 * row. */
static void test_merged(void)
{
    static struct picture broken;
    unsigned int i;

    picture_clear(&broken);
    picture_row(&broken, 0, ZUVAROPY_KIND_ROOT, 0);
    picture_label(&broken, 0, 0, 1);
    picture_row(&broken, 0, ZUVAROPY_KIND_FORALL, 0);
    for (i = 0; i < 15; i++) {
        picture_row(&broken, 0, ZUVAROPY_KIND_EXISTS, 0);
        picture_row(&broken, 1, ZUVAROPY_KIND_EXISTS, 0);
    }
    picture_end(&broken);

    pair.first = broken;
    rows_picture(&pair.second, ROWS(ROOT(0, 0)));
    lcs_check(&pair, word_refusal(14, 0), 0);
    pair.second = broken;
    lcs_check(&pair, word_refusal(14, 0), 1);
    rows_picture(&pair.first, ROWS(ROOT_NONE));
    lcs_check(&pair, word_second(14, 0), 2);
}

int main(void)
{
    test_pictures();
    test_common();
    test_merged();
    return check_summary("lcs, order");
}

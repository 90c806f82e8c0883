/*
 * The order of the questions: the buffers, the first picture, the second, 14 of
 * each.
 */

#include "check.h"
#include "rows.h"
#include "subsumes.h"
#include "verify.h"

#define WORK ZUVAROPY_WORK_BYTES
#define RESULT ZUVAROPY_MAX_EVIDENCE_BYTES

static struct inputs in;

/* A short buffer is refused before a picture is looked at, whichever it is. */
static void check_buffers(unsigned long at)
{
    CHECK_WORD(subsumes_room(&in, WORK - 1, RESULT, 0xA5, at), word_short(), at);
    CHECK_WORD(subsumes_room(&in, WORK, RESULT - 1, 0xA5, at), word_short(), at);
    CHECK_WORD(subsumes_room(&in, WORK - 1, RESULT - 1, 0xA5, at), word_short(), at);
}

/* Each question of the one picture with each of the other. A picture that none
 * refuses has two rows in its normal table, and subsumes itself. */
static void test_pictures(void)
{
    unsigned int first, second;
    uint64_t refusal;

    for (first = 0; first <= ZUVAROPY_QUESTION_MERGED; first++)
        for (second = 0; second <= ZUVAROPY_QUESTION_MERGED; second++)
            if (first != ZUVAROPY_QUESTION_BUFFER && second != ZUVAROPY_QUESTION_BUFFER) {
                picture_refused(&in.first, first);
                picture_refused(&in.second, second);
                refusal = word_of_pictures(word_refused(first), word_refused(second));
                subsumes_check(&in, refusal != 0 ? refusal : word_yes(2), 16 * first + second);
                check_buffers(16 * first + second);
            }
}

/* 14 is asked of the merged table, before breaking and dropping: the normal tables here have one row. */
static void test_merged(void)
{
    static struct picture broken;
    unsigned int i;

    picture_clear(&broken);
    picture_row(&broken, 0, ZUVAROPY_KIND_ROOT, 0);
    picture_label(&broken, 0, 0, 1);
    picture_row(&broken, 0, ZUVAROPY_KIND_FORALL, 0);
    for (i = 0; i < 15; i++) {
        picture_row(&broken, 0, ZUVAROPY_KIND_EXISTS, 0);
        picture_row(&broken, 1, ZUVAROPY_KIND_EXISTS, 0);
    }
    picture_end(&broken);

    in.first = broken;
    rows_picture(&in.second, ROWS(ROOT(0, 0)));
    subsumes_check(&in, word_refusal(14, 0), 0);
    in.second = broken;
    subsumes_check(&in, word_refusal(14, 0), 1);
    rows_picture(&in.first, ROWS(ROOT_NONE));
    subsumes_check(&in, word_second(14, 0), 2);
}

int main(void)
{
    test_pictures();
    test_merged();
    return check_summary("subsumes, order");
}

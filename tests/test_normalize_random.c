/*
 * The library and the reference writer agree on pictures made at random, and
 * on the same ones damaged. The seed is fixed: every run tests the same
 * pictures.
 */

#include "check.h"
#include "normal_reference.h"
#include "normalize.h"
#include "picture.h"
#include "random.h"

#include <string.h>

#define PICTURES 30000

static struct picture p;
static struct normal_reference wanted;

/* How often each kind of answer was met. */
static struct {
    unsigned long question[ZUVAROPY_QUESTION_MERGED + 1];
    unsigned long inconsistent, tidied, grown, large;
} met;

static void count_answer(void)
{
    const unsigned int rows = (unsigned int)(p.length / ZUVAROPY_ROW_BYTES);
    const unsigned int normal_rows = (unsigned int)(wanted.length / ZUVAROPY_ROW_BYTES);

    met.question[wanted.question]++;
    if (wanted.question != 0)
        return;
    if (wanted.bytes[ZUVAROPY_HEAD_BYTES + ZUVAROPY_IMPOSSIBLE_AT] == 1)
        met.inconsistent++;
    else if (normal_rows < wanted.merged)
        met.tidied++;
    if (wanted.merged > rows)
        met.grown++;
    if (normal_rows > ZUVAROPY_MAX_ROWS / 2)
        met.large++;
}

static void check_picture(unsigned long at)
{
    const unsigned int fill = normalize_fills[at % sizeof normalize_fills];

    normal_reference(&wanted, p.bytes, p.length);
    count_answer();
    normalize_check(&p, ZUVAROPY_MAX_PICTURE_BYTES, fill, wanted.word, wanted.bytes, at);
}

/* The normal table is a picture, and has a normal table in turn. */
static void check_again(unsigned long at)
{
    if (wanted.question != 0)
        return;
    memcpy(p.bytes, wanted.bytes, wanted.length);
    p.length = wanted.length;
    check_picture(at);
}

static void check_damaged(unsigned long at)
{
    unsigned int damages;

    for (damages = 1 + random_below(3); damages > 0 && p.length > 0; damages--)
        random_damage(&p);
    check_picture(at);
}

int main(void)
{
    unsigned long i;
    unsigned int question;

    for (i = 0; i < PICTURES; i++) {
        const struct shape shape = random_shape();

        random_picture(&p, &shape);
        check_picture(i);
        if (i % 2 == 0)
            check_again(i);
        else
            check_damaged(i);
    }

    /* The pictures reach every answer, and often. */
    CHECK(met.question[0] > PICTURES / 2);
    for (question = ZUVAROPY_QUESTION_HEAD; question <= ZUVAROPY_QUESTION_MERGED; question++)
        CHECK(met.question[question] > PICTURES / 2000);
    CHECK(met.inconsistent > PICTURES / 20);
    CHECK(met.tidied > PICTURES / 20);
    CHECK(met.grown > PICTURES / 20);
    CHECK(met.large > PICTURES / 500);
    return check_summary("normalize at random");
}

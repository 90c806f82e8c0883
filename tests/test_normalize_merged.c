/*
 * How large a merged table may be: what question 14 counts, where it stops
 * counting, and that it comes last.
 */

#define _POSIX_C_SOURCE 200112L /* alarm */

#include "check.h"
#include "normal_reference.h"
#include "normalize.h"
#include "picture.h"

#include <unistd.h>

/* Long enough for everything here, and short beside a merged table that is built to its end. */
#define SECONDS 100

#define R 8
#define S 9
#define NAME(n) (UINT64_C(1) << (n))

static struct picture p;

/* The word must be `wanted`; the reference says the bytes. */
static void check_word_of(uint64_t wanted, unsigned long at)
{
    static struct normal_reference reference;

    normal_reference(&reference, p.bytes, p.length);
    normalize_check_fills(&p, wanted, reference.bytes, at);
}

/* A root; below it one all r, below that `inner` restrictions, and `outer` some
 * r. Merged it has 2 + inner + outer (1 + inner) rows. The inner ones are some
 * s, or of kind all and each by its own role. */
static void make_spread(unsigned int inner, unsigned int outer, unsigned int kind)
{
    unsigned int i;

    picture_clear(&p);
    picture_row(&p, 0, ZUVAROPY_KIND_ROOT, 0);
    picture_row(&p, 0, ZUVAROPY_KIND_FORALL, R);
    for (i = 0; i < inner; i++)
        picture_row(&p, 1, kind, kind == ZUVAROPY_KIND_FORALL ? i : S);
    for (i = 0; i < outer; i++)
        picture_row(&p, 0, ZUVAROPY_KIND_EXISTS, R);
}

/* 256 rows and 257, where nothing is dropped. */
static void test_merged_rows(void)
{
    unsigned int outer;

    make_spread(16, 14, ZUVAROPY_KIND_EXISTS);
    picture_end(&p);
    check_word_of(word_length(256), 256);
    make_spread(15, 15, ZUVAROPY_KIND_EXISTS);
    picture_end(&p);
    check_word_of(word_refusal(14, 0), 257);

    for (outer = 0; outer <= 238; outer++) {
        make_spread(16, outer, ZUVAROPY_KIND_EXISTS);
        picture_end(&p);
        check_word_of(outer <= 14 ? word_length(18 + 17 * outer) : word_refusal(14, 0), outer);
    }
    picture_fan(&p, ZUVAROPY_MAX_ROWS);
    picture_end(&p);
    check_word_of(word_length(256), 256);
}

/* The merged rows count even if the normal table has few rows or one. */
static void test_merged_before_tidying(void)
{
    /* The inner rows say nothing, and then the one above them does not either. */
    make_spread(16, 14, ZUVAROPY_KIND_FORALL);
    picture_end(&p);
    check_word_of(word_length(15), 0);
    make_spread(15, 15, ZUVAROPY_KIND_FORALL);
    picture_end(&p);
    check_word_of(word_refusal(14, 0), 1);

    /* The last row, an existential restriction, is impossible, and so is the root. */
    make_spread(16, 14, ZUVAROPY_KIND_EXISTS);
    picture_label(&p, 0, 0, 1);
    picture_end(&p);
    check_word_of(word_length(1), 2);
    make_spread(15, 15, ZUVAROPY_KIND_EXISTS);
    picture_label(&p, 0, 0, 1);
    picture_end(&p);
    check_word_of(word_refusal(14, 0), 3);

    /* The root itself, by its mark and by a name. */
    make_spread(15, 15, ZUVAROPY_KIND_EXISTS);
    picture_end(&p);
    picture_value(&p, 0)[ZUVAROPY_IMPOSSIBLE_AT] = 1;
    check_word_of(word_refusal(14, 0), 4);
    make_spread(15, 15, ZUVAROPY_KIND_EXISTS);
    picture_end(&p);
    picture_value(&p, 0)[ZUVAROPY_WANTED_AT] = 1;
    picture_value(&p, 0)[ZUVAROPY_EXCLUDED_AT] = 1;
    check_word_of(word_refusal(14, 0), 5);

    /* The row whose successors are passed on. */
    make_spread(15, 15, ZUVAROPY_KIND_EXISTS);
    picture_end(&p);
    picture_value(&p, 1)[ZUVAROPY_IMPOSSIBLE_AT] = 1;
    check_word_of(word_refusal(14, 0), 6);
}

/* A chain of all r with `width` some r beside each link: merged, every row but
 * the deepest has 1 + width successors. `names` keeps the chain's rows from
 * being dropped. */
static void make_growth(unsigned int depth, unsigned int width, uint64_t names)
{
    unsigned int level, i, parent = 0;

    picture_clear(&p);
    picture_row(&p, 0, ZUVAROPY_KIND_ROOT, 0);
    for (level = 0; level < depth; level++) {
        const unsigned int link = 1 + level * (1 + width);

        picture_row(&p, parent, ZUVAROPY_KIND_FORALL, R);
        picture_label(&p, names, 0, 0);
        for (i = 0; i < width; i++) {
            picture_row(&p, parent, ZUVAROPY_KIND_EXISTS, R);
            picture_label(&p, NAME(i % ZUVAROPY_NAMES), 0, 0);
        }
        parent = link;
    }
    picture_end(&p);
}

/* 1 + w + w^2 + .. + w^depth for w = 1 + width; 257 stands for more. */
static unsigned int growth_rows(unsigned int depth, unsigned int width)
{
    unsigned int sum = 1;

    while (depth-- > 0 && sum <= ZUVAROPY_MAX_ROWS)
        sum = 1 + (1 + width) * sum;
    return sum <= ZUVAROPY_MAX_ROWS ? sum : ZUVAROPY_MAX_ROWS + 1;
}

/* Merged tables of as many as 19^12 rows are refused at once. */
static void test_growth(void)
{
    unsigned int depth, width, rows;

    for (depth = 1; depth <= ZUVAROPY_MAX_DEPTH; depth++)
        for (width = 0; depth * (1 + width) < ZUVAROPY_MAX_ROWS; width += 1 + width / 4) {
            static struct normal_reference reference;
            uint64_t wanted;

            rows = growth_rows(depth, width);
            make_growth(depth, width, NAME(63));
            check_word_of(rows <= ZUVAROPY_MAX_ROWS ? word_length(rows) : word_refusal(14, 0), depth * 256 + width);
            make_growth(depth, width, 0);
            normal_reference(&reference, p.bytes, p.length);
            CHECK(reference.merged == rows);
            wanted = rows <= ZUVAROPY_MAX_ROWS ? (uint64_t)1 << 56 | reference.length : word_refusal(14, 0);
            normalize_check_fills(&p, wanted, reference.bytes, depth * 256 + width);
        }
}

/* 2 to 13 of the whole picture come before 14. */
static void test_order(void)
{
    const unsigned int last = ZUVAROPY_MAX_DEPTH * 3;
    unsigned int question;

    for (question = ZUVAROPY_QUESTION_KIND; question <= ZUVAROPY_QUESTION_IMPOSSIBLE; question++)
        if (question != ZUVAROPY_QUESTION_DEPTH) {
            make_growth(ZUVAROPY_MAX_DEPTH, 2, 0);
            picture_damage(&p, last, question);
            normalize_check_fills(&p, word_refusal(question, last), NULL, question);
        }
    make_growth(ZUVAROPY_MAX_DEPTH, 2, 0);
    picture_byte(&p, 0);
    normalize_check_fills(&p, word_refusal(8, last + 1), NULL, 8);
    p.length -= 2;
    normalize_check_fills(&p, word_refusal(2, last + 1), NULL, 2);
}

int main(void)
{
    alarm(SECONDS);
    test_merged_rows();
    test_merged_before_tidying();
    test_growth();
    test_order();
    return check_summary("normalize, merged rows");
}

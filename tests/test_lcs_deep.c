/*
 * Common pictures of pictures as deep as allowed, and of trees in which every
 * row of a depth meets every other.
 */

#define _POSIX_C_SOURCE 200112L /* alarm */

#include "check.h"
#include "lcs.h"
#include "rows.h"

#include <unistd.h>

/* Long enough for everything here, and short beside a product that is made more than once at each depth. */
#define SECONDS 100

#define R 8
#define MAX_DEPTH ZUVAROPY_MAX_DEPTH

static struct pair pair;

/* Every mix of kinds, 12 edges deep: a chain has itself in common with itself; without a name at the end, what is
 * left ends with the last existential restriction. */
static void make_chain(struct picture *p, unsigned int all, uint64_t wanted)
{
    picture_kinds(p, MAX_DEPTH, all);
    picture_label(p, wanted, 0, 0);
    picture_end(p);
}

static void test_deep(void)
{
    unsigned int kinds, left;

    for (kinds = 0; kinds < 1u << MAX_DEPTH; kinds++) {
        make_chain(&pair.first, kinds, NAME(5));
        make_chain(&pair.second, kinds, NAME(5));
        lcs_check_rows(&pair, 1 + MAX_DEPTH, kinds);
        make_chain(&pair.second, kinds, NAME(6));
        for (left = MAX_DEPTH; left > 0 && (kinds >> (left - 1) & 1); left--)
            ;
        lcs_check_rows(&pair, 1 + left, kinds);
        make_chain(&pair.second, kinds ^ 1u, NAME(5));
        lcs_check_rows(&pair, 1, kinds);
    }
}

/* Full binary trees: at each depth four times as many pairs as at the one above. */
static void make_binary(struct picture *p, unsigned int depth)
{
    unsigned int row;

    picture_clear(p);
    picture_row(p, 0, ZUVAROPY_KIND_ROOT, 0);
    for (row = 1; row < (2u << depth) - 1; row++)
        picture_row(p, (row - 1) / 2, ZUVAROPY_KIND_EXISTS, R);
    picture_end(p);
}

static void test_binary(void)
{
    unsigned int first, second, least, i, rows;

    for (first = 0; first <= 7; first++)
        for (second = 0; second <= 7; second++) {
            make_binary(&pair.first, first);
            make_binary(&pair.second, second);
            least = first < second ? first : second;
            for (rows = i = 1; i <= least; i++)
                rows = 1 + 4 * rows;
            lcs_check_rows(&pair, rows, 8 * first + second);
        }
}

/* Chains of value restrictions beside each other by 21 roles, as deep as allowed: dropped from the last row up, unless
 * the ends have a name in common. */
static void make_chains(struct picture *p, uint64_t wanted)
{
    unsigned int role, edge;

    picture_clear(p);
    picture_row(p, 0, ZUVAROPY_KIND_ROOT, 0);
    for (role = 0; role < 21; role++) {
        for (edge = 0; edge < MAX_DEPTH; edge++)
            picture_row(p, edge == 0 ? 0 : picture_rows(p) - 1, ZUVAROPY_KIND_FORALL, role);
        picture_label(p, wanted, 0, 0);
    }
    picture_end(p);
}

static void test_chains(void)
{
    make_chains(&pair.first, NAME(1));
    make_chains(&pair.second, NAME(1));
    lcs_check_rows(&pair, 1 + 21 * MAX_DEPTH, 0);
    make_chains(&pair.second, NAME(2));
    lcs_check_rows(&pair, 1, 1);
    picture_value(&pair.second, 21 * MAX_DEPTH)[ZUVAROPY_WANTED_AT + 7] = 2;
    lcs_check_rows(&pair, 1 + MAX_DEPTH, 2);
}

int main(void)
{
    alarm(SECONDS);
    test_deep();
    test_binary();
    test_chains();
    return check_summary("lcs, deep");
}

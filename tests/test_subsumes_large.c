/*
 * The largest inputs: tables of 256 rows in which every row meets every other
 * and nothing is decided before the last, tables as deep as allowed, and the
 * refutations with the most individuals.
 */

#define _POSIX_C_SOURCE 200112L /* alarm */

#include "check.h"
#include "random.h"
#include "rows.h"
#include "subsumes.h"

#include <string.h>
#include <unistd.h>

/* Long enough for everything here, and short beside a search that meets pairs more than once at each depth. */
#define SECONDS 100

#define R 8
#define MAX_ROWS ZUVAROPY_MAX_ROWS

static struct inputs in;

/* A chain of so many some-edges and all the rest of 256 rows below its end, each with these names. */
static void make_brush(struct picture *p, unsigned int depth, uint64_t wanted, uint64_t excluded)
{
    unsigned int row;

    picture_clear(p);
    picture_row(p, 0, ZUVAROPY_KIND_ROOT, 0);
    for (row = 1; row < MAX_ROWS; row++) {
        picture_row(p, row <= depth ? row - 1 : depth, ZUVAROPY_KIND_EXISTS, R);
        if (row > depth)
            picture_label(p, wanted, excluded, 0);
    }
    picture_end(p);
}

/* Every pair of rows of the last depth is met: only the last row of the first will do for any. */
static void test_late(void)
{
    unsigned int depth, row;

    for (depth = 0; depth < ZUVAROPY_MAX_DEPTH; depth++) {
        make_brush(&in.first, depth, NAME(63), NAME(1));
        make_brush(&in.second, depth, NAME(63), NAME(0));
        picture_value(&in.first, MAX_ROWS - 1)[ZUVAROPY_EXCLUDED_AT + 7] = 1;
        CHECK_WORD(subsumes_any(&in, depth), word_yes(MAX_ROWS), depth);
        for (row = depth + 1; row < MAX_ROWS; row++)
            if (rows_number(evidence_image(&in.evidence, row), 2) != MAX_ROWS - 1)
                break;
        CHECK(row == MAX_ROWS);

        /* Not for the last of the second, now. */
        picture_value(&in.second, MAX_ROWS - 1)[ZUVAROPY_EXCLUDED_AT] = 1;
        CHECK_WORD(word_verdict(subsumes_any(&in, depth)), word_no(), depth);
    }
}

/* Pictures of 256 rows with themselves: of equal rows the lowest is taken. */
static void test_same(void)
{
    unsigned int rows, row;

    for (rows = 1; rows <= MAX_ROWS; rows += 1 + rows / 16) {
        picture_fan(&in.first, rows);
        picture_end(&in.first);
        in.second = in.first;
        CHECK_WORD(subsumes_any(&in, rows), word_yes(rows), rows);
        for (row = 1; row < rows && rows_number(evidence_image(&in.evidence, row), 2) == 1; row++)
            ;
        CHECK(row == rows);
    }
    /* By 32 roles, so that images go up to the last row. */
    picture_clear(&in.first);
    picture_row(&in.first, 0, ZUVAROPY_KIND_ROOT, 0);
    for (row = 1; row < MAX_ROWS; row++)
        picture_row(&in.first, (row - 1) / ZUVAROPY_ROLES, ZUVAROPY_KIND_EXISTS, (row - 1) % ZUVAROPY_ROLES);
    picture_end(&in.first);
    in.second = in.first;
    CHECK_WORD(subsumes_any(&in, 0), word_yes(MAX_ROWS), 0);
    for (row = 0; row < MAX_ROWS && rows_number(evidence_image(&in.evidence, row), 2) == row; row++)
        ;
    CHECK(row == MAX_ROWS);
}

/* A chain of existential and value restrictions, with a name at its end. */
static void make_chain(struct picture *p, unsigned int edges, unsigned int all, uint64_t wanted)
{
    picture_kinds(p, edges, all);
    picture_label(p, wanted, 0, 0);
    picture_end(p);
}

/* Every mix of kinds, 12 edges deep: it subsumes itself, but not if its end
 * asks for another name, is one edge higher, or hangs by the other kind. */
static void test_deep(void)
{
    const unsigned int deepest = ZUVAROPY_MAX_DEPTH;
    unsigned int kinds;

    for (kinds = 0; kinds < 1u << deepest; kinds++) {
        make_chain(&in.first, deepest, kinds, NAME(5));
        make_chain(&in.second, deepest, kinds, NAME(5));
        CHECK_WORD(subsumes_any(&in, kinds), word_yes(deepest + 1), kinds);
        make_chain(&in.second, deepest, kinds, NAME(6));
        CHECK_WORD(word_verdict(subsumes_any(&in, kinds)), word_no(), kinds);
        make_chain(&in.second, deepest - 1, kinds, NAME(5));
        CHECK_WORD(word_verdict(subsumes_any(&in, kinds)), word_no(), kinds);
        make_chain(&in.second, deepest, kinds ^ 1u << (deepest - 1), NAME(5));
        CHECK_WORD(word_verdict(subsumes_any(&in, kinds)), word_no(), kinds);
    }
}

/* Each of so many successors has to fail at the end of a chain of value
 * restrictions: an individual for it, and one for each edge below. Paper 01
 * leaves the length free; here it is this library's, so that long ones are met. */
static void test_refutations(void)
{
    unsigned int rows, edges;

    for (rows = 2; rows <= MAX_ROWS; rows += 1 + rows / 4)
        for (edges = 1; edges <= ZUVAROPY_MAX_DEPTH; edges++) {
            picture_fan(&in.first, rows);
            picture_end(&in.first);
            make_chain(&in.second, edges, ~1u, NAME(5));
            subsumes_check(&in, word_no(), edges);
            CHECK(in.evidence.length == ZUVAROPY_REFUTATION_BYTES(1 + (rows - 1) * edges));
        }
    picture_fan(&in.first, MAX_ROWS);
    picture_end(&in.first);
    make_chain(&in.second, ZUVAROPY_MAX_DEPTH, ~1u, NAME(5));
    subsumes_check(&in, word_no(), 0);
    CHECK(in.evidence.length == 42857); /* 1 + 255 * 12 individuals */
}

/* Trees of 256 rows at random, all by one role and without excluded names, so that no row is impossible. */
static void make_tree(struct picture *p, const struct shape *shape)
{
    unsigned int row;

    random_picture(p, shape);
    for (row = 0; row < MAX_ROWS; row++)
        memset(picture_value(p, row) + ZUVAROPY_EXCLUDED_AT, 0, ZUVAROPY_NAME_SET_BYTES);
}

/* The search has many rows to try. */
static void test_trees(void)
{
    static const struct shape shape = {MAX_ROWS, 1, ZUVAROPY_MAX_DEPTH, 0, 2, 2, 4, 0};
    unsigned int i, met[3] = {0};

    for (i = 0; i < 300; i++) {
        make_tree(&in.first, &shape);
        if (i % 3 == 0)
            make_tree(&in.second, &shape);
        else
            in.second = in.first;
        if (i % 3 == 1)
            picture_value(&in.second, 1 + random_below(MAX_ROWS - 1))[ZUVAROPY_WANTED_AT + 7] = (uint8_t)random_below(4);
        met[zuvaropy_outcome(subsumes_any(&in, i))]++;
    }
    CHECK(met[ZUVAROPY_OUTCOME_YES] >= 50);
    CHECK(met[ZUVAROPY_OUTCOME_NO] >= 50);
}

int main(void)
{
    alarm(SECONDS);
    test_late();
    test_same();
    test_deep();
    test_refutations();
    test_trees();
    return check_summary("subsumes, large");
}

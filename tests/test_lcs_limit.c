/*
 * The limit of 256 rows, which is of what is left after dropping: products up to
 * it and one over it, made of existential restrictions, of value restrictions
 * and of subtrees that stand for an impossible side, and products that are
 * larger only before dropping.
 */

#include "check.h"
#include "lcs.h"
#include "lcs_reference.h"
#include "rows.h"

#define R 8
#define S 9
#define MAX_ROWS ZUVAROPY_MAX_ROWS
#define MAX_DEPTH ZUVAROPY_MAX_DEPTH

static struct pair pair;

static void begin(struct picture *p)
{
    picture_clear(p);
    picture_row(p, 0, ZUVAROPY_KIND_ROOT, 0);
}

/* So many rows of this kind and role below a row; the last one's number. */
static unsigned int hang(struct picture *p, unsigned int parent, unsigned int count, unsigned int kind,
                         unsigned int role)
{
    for (; count > 0; count--)
        picture_row(p, parent, kind, role);
    return picture_rows(p) - 1;
}

/* A chain of value restrictions, each by another role than that below it. Its end has this name. */
static void hang_chain(struct picture *p, unsigned int parent, unsigned int edges, unsigned int role, uint64_t wanted)
{
    for (; edges > 0; edges--)
        parent = hang(p, parent, 1, ZUVAROPY_KIND_FORALL, (role + edges) % ZUVAROPY_ROLES);
    picture_label(p, wanted, 0, 0);
}

static void end(void)
{
    picture_end(&pair.first);
    picture_end(&pair.second);
}

/* Existential restrictions below both roots, so many pairs of them. The last rows of both are paired last. */
static void hang_pairs(unsigned int pairs, unsigned int role)
{
    hang(&pair.first, 0, 15, ZUVAROPY_KIND_EXISTS, role);
    hang(&pair.second, 0, pairs / 15, ZUVAROPY_KIND_EXISTS, role);
    if (pairs % 15 != 0) {
        hang(&pair.first, 0, 1, ZUVAROPY_KIND_EXISTS, role + 1);
        hang(&pair.second, 0, pairs % 15, ZUVAROPY_KIND_EXISTS, role + 1);
    }
}

/* Existential restrictions below the root, each with each. */
static void check_fans(unsigned int first, unsigned int second)
{
    begin(&pair.first);
    begin(&pair.second);
    hang(&pair.first, 0, first, ZUVAROPY_KIND_EXISTS, R);
    hang(&pair.second, 0, second, ZUVAROPY_KIND_EXISTS, R);
    end();
    lcs_check_rows(&pair, 1 + first * second, 1000 * first + second);
}

static void test_fans(void)
{
    unsigned int n;

    check_fans(15, 17);
    CHECK(pair.common.length == ZUVAROPY_MAX_PICTURE_BYTES);
    check_fans(16, 16);
    for (n = 1; n < MAX_ROWS; n++) {
        check_fans(n, 255 / n);
        if (255 / n + 1 < MAX_ROWS)
            check_fans(n, 255 / n + 1);
    }
    check_fans(255, 255);
}

/* Below each existential restriction chains of value restrictions whose ends have no name in common. All of them are
 * dropped, from the end up, and none is counted. */
static void hang_all(struct picture *p, unsigned int count, unsigned int chains, unsigned int edges, uint64_t wanted)
{
    unsigned int row, i;

    begin(p);
    for (; count > 0; count--) {
        row = hang(p, 0, 1, ZUVAROPY_KIND_EXISTS, R);
        for (i = 0; i < chains; i++)
            hang_chain(p, row, edges, 2 * i, wanted);
    }
}

static void test_dropped(void)
{
    unsigned int edges, chains;

    for (edges = 1; edges < MAX_DEPTH; edges++)
        for (chains = 1; chains * edges <= 14; chains++) {
            hang_all(&pair.first, 15, chains, edges, NAME(1));
            hang_all(&pair.second, 17, chains, edges, NAME(2));
            end();
            lcs_check_rows(&pair, MAX_ROWS, 100 * edges + chains);
            CHECK(reference_lcs_paired() == MAX_ROWS + 255 * chains * edges);
            hang_all(&pair.first, 16, chains, edges, NAME(1));
            hang_all(&pair.second, 16, chains, edges, NAME(2));
            end();
            lcs_check_rows(&pair, MAX_ROWS + 1, 100 * edges + chains);
        }
}

/* So many pairs and, below the last one, a chain of value restrictions with a name at its end: it is dropped if the
 * names differ, and else counted. */
static void check_late(unsigned int pairs, unsigned int edges, int shared)
{
    begin(&pair.first);
    begin(&pair.second);
    hang_pairs(pairs, R);
    hang_chain(&pair.first, picture_rows(&pair.first) - 1, edges, 0, NAME(1));
    hang_chain(&pair.second, picture_rows(&pair.second) - 1, edges, 0, NAME(shared ? 1 : 2));
    end();
    lcs_check_rows(&pair, 1 + pairs + (shared ? edges : 0), 100 * pairs + edges);
}

static void test_late(void)
{
    unsigned int edges;

    for (edges = 1; edges < MAX_DEPTH; edges++) {
        check_late(255, edges, 0);
        check_late(256, edges, 0);
        check_late(255 - edges, edges, 1);
        check_late(256 - edges, edges, 1);
        check_late(255, edges, 1);
    }
}

/* So many pairs and, from the root, a chain of value restrictions as deep as allowed, before them or after. The row at
 * this depth has a name in common, and none below it, so that depth 0 leaves nothing of the chain. */
static void check_beside(unsigned int pairs, unsigned int depth, unsigned int role)
{
    begin(&pair.first);
    begin(&pair.second);
    hang_chain(&pair.first, 0, MAX_DEPTH, 2, NAME(1));
    hang_chain(&pair.second, 0, MAX_DEPTH, 2, NAME(2));
    if (depth > 0) {
        picture_value(&pair.first, depth)[ZUVAROPY_EXCLUDED_AT] = 1;
        picture_value(&pair.second, depth)[ZUVAROPY_EXCLUDED_AT] = 1;
    }
    hang_pairs(pairs, role);
    end();
    lcs_check_rows(&pair, 1 + pairs + depth, 100 * pairs + depth);
}

static void test_beside(void)
{
    unsigned int depth, role;

    for (depth = 0; depth <= MAX_DEPTH; depth++)
        for (role = 0; role <= 30; role += 30) {
            check_beside(255 - depth, depth, role);
            check_beside(256 - depth, depth, role);
            check_beside(255, depth, role);
        }
}

/* A value restriction with existential ones below it, so many rows in all; an impossible one. */
static void hang_subtree(struct picture *p, unsigned int parent, unsigned int rows, unsigned int role)
{
    const unsigned int row = hang(p, parent, 1, ZUVAROPY_KIND_FORALL, role);

    picture_label(p, NAME(5), 0, 0);
    hang(p, row, rows - 1, ZUVAROPY_KIND_EXISTS, S);
}

static void hang_none(struct picture *p, unsigned int parent, unsigned int role)
{
    hang(p, parent, 1, ZUVAROPY_KIND_FORALL, role);
    picture_label(p, 0, 0, 1);
}

/* Each side has a subtree where the other is impossible: both stand in the product, whole. */
static void check_subtrees(unsigned int first, unsigned int second)
{
    begin(&pair.first);
    begin(&pair.second);
    hang_subtree(&pair.first, 0, first, 3);
    hang_none(&pair.second, 0, 3);
    hang_none(&pair.first, 0, 4);
    hang_subtree(&pair.second, 0, second, 4);
    end();
    lcs_check_rows(&pair, 1 + first + second, 1000 * first + second);
}

/* So do as many as there are pairs of existential restrictions. */
static void check_copies(unsigned int first, unsigned int second, unsigned int rows)
{
    unsigned int i;

    begin(&pair.first);
    begin(&pair.second);
    for (i = 0; i < first; i++)
        hang_none(&pair.first, hang(&pair.first, 0, 1, ZUVAROPY_KIND_EXISTS, R), S);
    for (i = 0; i < second; i++)
        hang_subtree(&pair.second, hang(&pair.second, 0, 1, ZUVAROPY_KIND_EXISTS, R), rows, S);
    end();
    lcs_check_rows(&pair, 1 + first * second * (1 + rows), 1000 * first + second);
}

static void test_subtrees(void)
{
    unsigned int rows;

    for (rows = 2; rows <= 253; rows++) {
        check_subtrees(rows, 255 - rows);
        check_subtrees(rows, 256 - rows);
    }
    check_subtrees(254, 254);
    check_copies(5, 17, 2);  /* 256 rows */
    check_copies(1, 3, 84);
    check_copies(85, 1, 2);
    check_copies(2, 64, 1);  /* 257 rows */
    check_copies(16, 8, 1);
    check_copies(127, 25, 9);
}

/* A root that is impossible: the largest table of the other side. */
static void test_root(void)
{
    picture_fan(&pair.first, MAX_ROWS);
    picture_end(&pair.first);
    rows_picture(&pair.second, ROWS(ROOT_NONE));
    lcs_check_rows(&pair, MAX_ROWS, 0);
    pair.second = pair.first;
    rows_picture(&pair.first, ROWS(ROOT_NONE));
    lcs_check_rows(&pair, MAX_ROWS, 1);
    rows_picture(&pair.second, ROWS(ROOT_NONE));
    lcs_check_rows(&pair, 1, 2);
}

/* Value restrictions by 32 roles, as many as allowed, in both: they meet one to one. Without names in common nothing
 * is left; with one at the first row, or at the last, that and all above it. */
static void make_values(struct picture *p, uint64_t wanted)
{
    unsigned int row;

    begin(p);
    for (row = 1; row < MAX_ROWS; row++) {
        picture_row(p, (row - 1) / ZUVAROPY_ROLES, ZUVAROPY_KIND_FORALL, (row - 1) % ZUVAROPY_ROLES);
        picture_label(p, wanted, 0, 0);
    }
    picture_end(p);
}

static void test_values(void)
{
    make_values(&pair.first, NAME(1));
    make_values(&pair.second, NAME(1));
    lcs_check_rows(&pair, MAX_ROWS, 0);
    make_values(&pair.second, NAME(2));
    lcs_check_rows(&pair, 1, 1);
    picture_value(&pair.second, 1)[ZUVAROPY_WANTED_AT + 7] = 2;
    lcs_check_rows(&pair, 2, 2);
    picture_value(&pair.second, MAX_ROWS - 1)[ZUVAROPY_WANTED_AT + 7] = 2; /* below row 7 */
    lcs_check_rows(&pair, 4, 3);
}

int main(void)
{
    test_fans();
    test_dropped();
    test_late();
    test_beside();
    test_subtrees();
    test_root();
    test_values();
    return check_summary("lcs, limit");
}

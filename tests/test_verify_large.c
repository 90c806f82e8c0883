/*
 * The largest inputs: maps of 256 rows, and refutations of 3,328 individuals
 * against tables of 256 rows in which every individual meets every row of its
 * depth and nothing is decided before the last one.
 */

#define _POSIX_C_SOURCE 200112L /* alarm */

#include "check.h"
#include "random.h"
#include "rows.h"
#include "verify.h"
#include "witness.h"

#include <unistd.h>

/* Long enough for everything here, and short beside a search that meets pairs more than once. */
#define SECONDS 100

#define R 8
#define ROOM_ROWS ZUVAROPY_MAX_ROWS
#define MANY ZUVAROPY_MAX_INDIVIDUALS

static struct inputs in;

/* Only the last individual has HOLDS without LACKS, which is what the rows ask for. */
#define HOLDS NAME(63)
#define LACKS NAME(0)

/* What n hangs from in a brush: a chain of so many edges, and all the rest below its end. */
static unsigned int above(unsigned int n, unsigned int depth)
{
    if (n == 0)
        return 0;
    return n <= depth ? n - 1 : depth;
}

/* A brush of existential restrictions. */
static void make_late(struct picture *p, unsigned int depth)
{
    unsigned int row;

    picture_clear(p);
    for (row = 0; row < ROOM_ROWS; row++) {
        picture_row(p, above(row, depth), row == 0 ? ZUVAROPY_KIND_ROOT : ZUVAROPY_KIND_EXISTS, row == 0 ? 0 : R);
        if (row > depth)
            picture_label(p, HOLDS, LACKS, 0);
    }
    picture_end(p);
}

/* The individuals that its rows meet. */
static void make_brush(unsigned int depth)
{
    unsigned int i;

    evidence_clear(&in.evidence);
    for (i = 0; i < MANY; i++)
        evidence_individual(&in.evidence, above(i, depth), i == 0 ? 0 : R, i < MANY - 1 ? HOLDS | LACKS : HOLDS);
    evidence_end(&in.evidence);
}

/* Every pair of an individual and a row of the last depth is met, in both tables. */
static void test_late(void)
{
    unsigned int depth;

    for (depth = 0; depth < ZUVAROPY_MAX_DEPTH; depth += 11) {
        make_late(&in.first, depth);
        make_late(&in.second, depth);
        make_brush(depth);
        CHECK_WORD(verify_any(&in, depth), word_evidence(23), depth);
        picture_value(&in.second, ROOM_ROWS - 1)[ZUVAROPY_WANTED_AT + 1] = 1;
        CHECK_WORD(verify_any(&in, depth), word_refutation_taken(), depth);
        picture_value(&in.first, ROOM_ROWS - 1)[ZUVAROPY_EXCLUDED_AT] = 0x80;
        CHECK_WORD(verify_any(&in, depth), word_evidence(22), depth);
    }
}

/* Value restrictions by so many roles; each individual must be looked at. */
static void test_values(void)
{
    unsigned int i, at;

    for (at = 1; at < MANY; at += 1 + at) {
        picture_clear(&in.first);
        picture_row(&in.first, 0, ZUVAROPY_KIND_ROOT, 0);
        for (i = 0; i < ZUVAROPY_ROLES; i++) {
            picture_row(&in.first, 0, ZUVAROPY_KIND_FORALL, i);
            picture_label(&in.first, HOLDS, LACKS, 0);
        }
        picture_end(&in.first);
        in.second = in.first;
        evidence_clear(&in.evidence);
        for (i = 0; i < MANY; i++)
            evidence_individual(&in.evidence, 0, i == 0 ? 0 : i % ZUVAROPY_ROLES, HOLDS);
        evidence_end(&in.evidence);
        CHECK_WORD(verify_any(&in, at), word_evidence(23), at);
        picture_value(&in.second, 1 + at % ZUVAROPY_ROLES)[ZUVAROPY_WANTED_AT + 1] = 1;
        CHECK_WORD(verify_any(&in, at), word_refutation_taken(), at);
        evidence_value(&in.evidence, at)[ZUVAROPY_INDIVIDUAL_NAMES_AT] = 0;
        CHECK_WORD(verify_any(&in, at), word_evidence(22), at);
    }
}

/* Parents of individuals: all siblings, one chain, trees by level and by depth, combs, at random. */
static unsigned int parent_of(unsigned int shape, unsigned int i)
{
    switch (shape) {
    case 0:
        return 0;
    case 1:
        return i - 1;
    case 2:
        return (i - 1) / 2;
    case 3:
        return (i - 1) / 57;
    case 4:
        return i - 1 - (i - 1) % 13; /* siblings below every 13th */
    case 5:
        return i % 12 == 1 ? 0 : i - 1; /* chains */
    case 6:
        return i & (i - 1); /* a tree in which each is above a run of others */
    default:
        return random_below(i);
    }
}

#define SHAPES 8

static void make_shape(unsigned int shape, unsigned int count, unsigned int roles)
{
    unsigned int i;

    evidence_clear(&in.evidence);
    evidence_individual(&in.evidence, 0, 0, HOLDS);
    for (i = 1; i < count; i++)
        evidence_individual(&in.evidence, parent_of(shape, i), i % roles, random_below(3) == 0 ? HOLDS | LACKS : HOLDS);
    evidence_end(&in.evidence);
}

/* Pictures: a chain, a fan, a tree of three levels, rows of every role; kind 0: both kinds. */
#define PICTURES 4

static void make_picture(struct picture *p, unsigned int shape, unsigned int kind)
{
    static const unsigned int widths[PICTURES] = {1, ROOM_ROWS, 15, 31};
    const unsigned int rows = shape == 0 ? ZUVAROPY_MAX_DEPTH + 1 : ROOM_ROWS;
    unsigned int row;

    picture_clear(p);
    picture_row(p, 0, ZUVAROPY_KIND_ROOT, 0);
    for (row = 1; row < rows; row++) {
        picture_row(p, (row - 1) / widths[shape], kind == 0 ? 1 + row % 2 : kind,
                    shape == 3 ? row % ZUVAROPY_ROLES : row % 2);
        picture_label(p, HOLDS, 0, 0);
    }
    picture_end(p);
}

/* Every shape of individuals against every shape of pictures. */
static void test_shapes(void)
{
    unsigned long met[ZUVAROPY_QUESTION_REFUTED + 1] = {0};
    unsigned int shape, first, second, kind;

    for (shape = 0; shape < SHAPES; shape++)
        for (first = 0; first < PICTURES; first++)
            for (second = 0; second < PICTURES; second++)
                for (kind = 0; kind <= ZUVAROPY_KIND_FORALL; kind++) {
                    make_picture(&in.first, first, kind);
                    make_picture(&in.second, second, ZUVAROPY_KIND_EXISTS);
                    make_shape(shape, MANY, first == 3 ? ZUVAROPY_ROLES : 2);
                    met[zuvaropy_question(verify_any(&in, shape))]++;
                }

    /* Taken, and refused by 22 and by 23. */
    CHECK(met[0] > 50);
    CHECK(met[ZUVAROPY_QUESTION_INSTANCE] > 50);
    CHECK(met[ZUVAROPY_QUESTION_REFUTED] > 50);
}

/* 256 rows in both tables, sent to themselves, to one another and to where nothing is allowed. */
static void test_maps(void)
{
    unsigned int images[ROOM_ROWS];
    unsigned int row, k;

    picture_fan(&in.first, ROOM_ROWS);
    picture_end(&in.first);
    in.second = in.first;
    for (k = 0; k < ROOM_ROWS; k++) {
        for (row = 0; row < ROOM_ROWS; row++)
            images[row] = row == 0 ? 0 : 1 + (row + k) % (ROOM_ROWS - 1);
        evidence_map(&in.evidence, images, ROOM_ROWS);
        CHECK_WORD(verify_any(&in, k), word_map_taken(), k);
        evidence_put(evidence_image(&in.evidence, k), ROOM_ROWS);
        CHECK_WORD(verify_any(&in, k), word_evidence(17), k);
        evidence_put(evidence_image(&in.evidence, k), k == 0 ? 1 : 0);
        CHECK_WORD(verify_any(&in, k), word_evidence(k == 0 ? 18 : 20), k);
    }
}

/* A refutation of nearly as many individuals as there may be: each of 255
 * successors has to fail at the end of a chain of value restrictions. Its
 * length is the choice of tests/witness.c; there are shorter ones. */
static void test_witness(void)
{
    picture_fan(&in.first, ROOM_ROWS);
    picture_end(&in.first);
    picture_kinds(&in.second, ZUVAROPY_MAX_DEPTH, ~1u);
    picture_label(&in.second, NAME(5), 0, 0);
    picture_end(&in.second);
    CHECK(!witness_make(&in));
    CHECK(in.evidence.length == ZUVAROPY_REFUTATION_BYTES(1 + 255 * 12));
    verify_check(&in, word_refutation_taken(), 0);
    evidence_value(&in.evidence, 12)[ZUVAROPY_INDIVIDUAL_NAMES_AT + 7] = 1 << 5;
    verify_check(&in, word_evidence(23), 0);
}

int main(void)
{
    alarm(SECONDS);
    test_late();
    test_values();
    test_shapes();
    test_maps();
    test_witness();
    return check_summary("verify, large");
}

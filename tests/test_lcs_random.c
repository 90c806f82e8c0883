/*
 * The library and the reference agree on the common pictures of pairs made at
 * random, and these agree with the verdicts: a common picture subsumes both, is
 * subsumed by what subsumes both, and says the same the other way round. The seed
 * is fixed: every run tests the same pictures.
 */

#include "check.h"
#include "lcs.h"
#include "lcs_reference.h"
#include "random.h"

#define PAIRS 12000

static struct pair pair;

/* How often each answer was met. */
static struct {
    unsigned long refused[ZUVAROPY_INPUT_SECOND + 1][ZUVAROPY_QUESTION_COMMON + 1];
    unsigned long common, large; /* of more than 50 rows */
    unsigned long dropped, late; /* some rows; and so many that 15 would refuse them */
    unsigned long subsuming, least, same;
} met;

static void count(uint64_t word)
{
    const unsigned int paired = reference_lcs_paired(), kept = reference_lcs_kept();

    if (zuvaropy_outcome(word) == ZUVAROPY_OUTCOME_REFUSAL) {
        met.refused[zuvaropy_input(word)][zuvaropy_question(word)]++;
        return;
    }
    met.common++;
    met.large += kept > 50;
    met.dropped += kept < paired;
    met.late += paired > ZUVAROPY_MAX_ROWS;
}

/* What subsumes both subsumes the common picture. Changes to that make such pictures. */
static void check_least(const struct shape *s)
{
    static struct picture general;
    unsigned int changes;

    general = pair.common;
    for (changes = 1 + random_below(4); changes > 0; changes--)
        random_change(&general, s);
    if (lcs_subsumes(&pair.first, &general) == ZUVAROPY_OUTCOME_YES &&
        lcs_subsumes(&pair.second, &general) == ZUVAROPY_OUTCOME_YES) {
        CHECK(lcs_subsumes(&pair.common, &general) == ZUVAROPY_OUTCOME_YES);
        met.least++;
    }
}

/* The other way round, and with itself, which 15 may refuse where it did not refuse the pair. */
static void check_others(unsigned long at)
{
    static struct pair other;

    other.first = pair.second;
    other.second = pair.first;
    CHECK_WORD(lcs_any(&other, at), (uint64_t)1 << 56 | pair.common.length, at);
    lcs_check_equivalent(&other.common, &pair.common);
    other.first = pair.first;
    if (zuvaropy_outcome(lcs_any(&other, at)) == ZUVAROPY_OUTCOME_YES) {
        lcs_check_equivalent(&other.common, &pair.first);
        met.same++;
    }
}

static void check_pair(const struct shape *s, unsigned long at)
{
    const uint64_t word = lcs_any(&pair, at);

    count(word);
    if (zuvaropy_outcome(word) == ZUVAROPY_OUTCOME_REFUSAL)
        return;
    if (lcs_check_subsumes(&pair)) {
        met.subsuming++;
        check_least(s);
    }
    check_others(at);
}

/* A damaged picture. */
static void check_damaged(unsigned long at)
{
    struct picture *p = random_below(2) ? &pair.first : &pair.second;
    unsigned int damages;

    for (damages = 1 + random_below(3); damages > 0 && p->length > 0; damages--)
        random_damage(p);
    count(lcs_any(&pair, at));
}

/* Existential restrictions with chains of value restrictions below them, the ends of which have this name or, seldom,
 * another: about as many pairs as there may be rows, and most of what is below them dropped. */
static void make_brush(struct picture *p, unsigned int count, unsigned int edges, unsigned int name)
{
    unsigned int edge;

    picture_clear(p);
    picture_row(p, 0, ZUVAROPY_KIND_ROOT, 0);
    for (; count > 0; count--) {
        picture_row(p, 0, ZUVAROPY_KIND_EXISTS, 0);
        for (edge = 0; edge < edges; edge++)
            picture_row(p, picture_rows(p) - 1, ZUVAROPY_KIND_FORALL, random_below(8) == 0);
        picture_label(p, UINT64_C(1) << (random_below(16) == 0 ? random_below(2) : name), 0, random_below(40) == 0);
    }
    picture_end(p);
}

static void check_brush(const struct shape *s, unsigned long at)
{
    const unsigned int first = 12 + random_below(6), edges = 1 + random_below(8);

    make_brush(&pair.first, first, edges, 0);
    make_brush(&pair.second, 256 / first - random_below(4), edges, 1);
    check_pair(s, at);
}

int main(void)
{
    unsigned int question;
    unsigned long i;

    for (i = 0; i < PAIRS; i++) {
        struct shape shape = random_shape();

        if (i % 2 == 0) /* few value restrictions: large pictures have tables too */
            shape.all = random_below(2);
        random_pair(&pair.first, &pair.second, &shape);
        if (i % 8 == 1) { /* much that meets and has nothing in common */
            shape.roles = 1 + random_below(2);
            random_picture(&pair.first, &shape);
            random_picture(&pair.second, &shape);
        }
        check_pair(&shape, i);
        if (i % 4 == 0)
            check_damaged(i);
        if (i % 16 == 0)
            check_brush(&shape, i);
    }

    /* The pictures reach every answer, and often. */
    CHECK(met.common > PAIRS / 2);
    CHECK(met.large > PAIRS / 100);
    CHECK(met.dropped > PAIRS / 20);
    CHECK(met.late > PAIRS / 200);
    CHECK(met.subsuming > PAIRS / 3);
    CHECK(met.least > PAIRS / 10);
    CHECK(met.same > PAIRS / 3);
    for (question = ZUVAROPY_QUESTION_HEAD; question <= ZUVAROPY_QUESTION_MERGED; question++)
        CHECK(met.refused[ZUVAROPY_INPUT_FIRST][question] > PAIRS / 2000);
    CHECK(met.refused[ZUVAROPY_INPUT_SECOND][ZUVAROPY_QUESTION_MERGED] > PAIRS / 1000);
    CHECK(met.refused[ZUVAROPY_INPUT_SECOND][ZUVAROPY_QUESTION_COMMON] > PAIRS / 50);
    return check_summary("lcs at random");
}

/*
 * Verdicts on pictures made at random: each is the reference's, with evidence
 * that is taken, and they agree with each other. The seed is fixed: every run
 * tests the same pictures.
 */

#include "calls.h"
#include "check.h"
#include "random.h"
#include "subsumes.h"

#define PAIRS 12000

static struct inputs in;

/* How often each answer was met. */
static struct {
    unsigned long refused[ZUVAROPY_INPUT_SECOND + 1][ZUVAROPY_QUESTION_MERGED + 1];
    unsigned long yes, no;
    unsigned long long_map, long_refutation; /* of more than 50 rows or individuals */
    unsigned long chained;
} met;

static unsigned int subsumes(const struct picture *first, const struct picture *second, unsigned long at)
{
    in.first = *first;
    in.second = *second;
    return zuvaropy_outcome(subsumes_any(&in, at));
}

static void count(uint64_t word)
{
    switch (zuvaropy_outcome(word)) {
    case ZUVAROPY_OUTCOME_YES:
        met.yes++;
        met.long_map += in.evidence.length > ZUVAROPY_MAP_BYTES(50);
        break;
    case ZUVAROPY_OUTCOME_NO:
        met.no++;
        met.long_refutation += in.evidence.length > ZUVAROPY_REFUTATION_BYTES(50);
        break;
    default:
        met.refused[zuvaropy_input(word)][zuvaropy_question(word)]++;
    }
}

/* A picture and its normal table subsume each other. */
static void check_normal(const struct picture *p, unsigned long at)
{
    static struct picture table;

    table.length = zuvaropy_value(call_normalize(p->bytes, p->length, table.bytes, ZUVAROPY_MAX_PICTURE_BYTES));
    if (subsumes(p, &table, at) != ZUVAROPY_OUTCOME_REFUSAL) { /* by 14, of the table */
        CHECK(subsumes(p, &table, at) == ZUVAROPY_OUTCOME_YES);
        CHECK(subsumes(&table, p, at) == ZUVAROPY_OUTCOME_YES);
    }
}

/* What subsumes a picture that subsumes a third subsumes that. */
static void check_chain(const struct picture *a, const struct picture *b, const struct shape *s, unsigned long at)
{
    static struct picture c;

    c = *b;
    random_change(&c, s);
    if (subsumes(b, &c, at) == ZUVAROPY_OUTCOME_YES) {
        CHECK(subsumes(a, &c, at) == ZUVAROPY_OUTCOME_YES);
        met.chained++;
    }
}

static void check_pair(const struct shape *s, unsigned long at)
{
    static struct picture first, second;
    uint64_t word;

    random_pair(&first, &second, s);
    in.first = first;
    in.second = second;
    word = subsumes_any(&in, at);
    count(word);
    if (zuvaropy_outcome(word) == ZUVAROPY_OUTCOME_REFUSAL)
        return;
    CHECK(subsumes(&first, &first, at) == ZUVAROPY_OUTCOME_YES);
    check_normal(&first, at);
    if (zuvaropy_outcome(word) == ZUVAROPY_OUTCOME_YES)
        check_chain(&first, &second, s, at);
}

int main(void)
{
    unsigned long i;

    for (i = 0; i < PAIRS; i++) {
        struct shape shape = random_shape();

        if (i % 2 == 0) /* few value restrictions: large pictures have tables too */
            shape.all = random_below(2);
        check_pair(&shape, i);
    }

    /* The pictures reach every answer, and often. That refutations are long is this library's choice; paper 01 leaves
     * their length free. */
    CHECK(met.yes > PAIRS / 10);
    CHECK(met.no > PAIRS / 10);
    CHECK(met.long_map > PAIRS / 200);
    CHECK(met.long_refutation > PAIRS / 200);
    CHECK(met.chained > PAIRS / 20);
    CHECK(met.refused[ZUVAROPY_INPUT_FIRST][ZUVAROPY_QUESTION_MERGED] > PAIRS / 100);
    CHECK(met.refused[ZUVAROPY_INPUT_SECOND][ZUVAROPY_QUESTION_MERGED] > PAIRS / 1000);
    return check_summary("subsumes at random");
}

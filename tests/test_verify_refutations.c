/*
 * Refutations by hand: those that are taken, and those that each of the
 * questions 21 to 23 refuses.
 */

#include "check.h"
#include "rows.h"
#include "verify.h"

#define R 8
#define S 9

static struct inputs in;

struct individual {
    unsigned int parent, role;
    uint64_t names;
};

#define INDIVIDUALS(...)                                                                                               \
    (const struct individual[]){__VA_ARGS__},                                                                          \
        sizeof((const struct individual[]){__VA_ARGS__}) / sizeof(struct individual)

static const struct {
    struct row_list first, second;
    struct {
        const struct individual *of;
        size_t count;
    } individuals;
    unsigned int question;
} refutations[] = {
    /* 0 to 3: names 3 and 5 at two successors are not both at one. */
    {{ROWS(ROOT(0, 0), SOME(0, R, NAME(3), 0), SOME(0, R, NAME(5), 0))},
     {ROWS(ROOT(0, 0), SOME(0, R, NAME(3) | NAME(5), 0))},
     {INDIVIDUALS({0, 0, 0}, {0, R, NAME(3)}, {0, R, NAME(5)})},
     0},
    {{ROWS(ROOT(0, 0), SOME(0, R, NAME(3), 0), SOME(0, R, NAME(5), 0))},
     {ROWS(ROOT(0, 0), SOME(0, R, NAME(3) | NAME(5), 0))},
     {INDIVIDUALS({0, 0, 0}, {0, R, NAME(3) | NAME(5)})},
     23},
    {{ROWS(ROOT(0, 0), SOME(0, R, NAME(3) | NAME(5), 0))},
     {ROWS(ROOT(0, 0), SOME(0, R, NAME(3), 0), SOME(0, R, NAME(5), 0))},
     {INDIVIDUALS({0, 0, 0}, {0, R, NAME(3)}, {0, R, NAME(5)})},
     22},
    {{ROWS(ROOT(0, 0), SOME(0, R, NAME(3) | NAME(5), 0))},
     {ROWS(ROOT(0, 0), SOME(0, R, NAME(3), 0), SOME(0, R, NAME(5), 0))},
     {INDIVIDUALS({0, 0, 0}, {0, R, NAME(3) | NAME(5)})},
     23},
    /* 4 to 9: where nothing is reached by a role, every value restriction by it holds and no existential one. */
    {{ROWS(ROOT(0, 0), ALL_NONE(0, R))}, {ROWS(ROOT(0, 0), SOME(0, R, 0, 0))}, {INDIVIDUALS({0, 0, 0})}, 0},
    {{ROWS(ROOT(0, 0), ALL_NONE(0, R))}, {ROWS(ROOT(0, 0), ALL(0, R, NAME(5), 0))}, {INDIVIDUALS({0, 0, 0})}, 23},
    {{ROWS(ROOT(0, 0), ALL_NONE(0, R))},
     {ROWS(ROOT(0, 0), ALL(0, R, NAME(5), 0))},
     {INDIVIDUALS({0, 0, 0}, {0, R, 0})},
     22},
    {{ROWS(ROOT(0, 0), ALL(0, R, NAME(5), 0))}, {ROWS(ROOT(0, 0), ALL_NONE(0, R))}, {INDIVIDUALS({0, 0, 0})}, 23},
    {{ROWS(ROOT(0, 0), ALL(0, R, NAME(5), 0))},
     {ROWS(ROOT(0, 0), ALL_NONE(0, R))},
     {INDIVIDUALS({0, 0, 0}, {0, R, NAME(5)})},
     0},
    {{ROWS(ROOT(0, 0), ALL_NONE(0, R))}, {ROWS(ROOT(0, 0), SOME(0, R, 0, 0))}, {INDIVIDUALS({0, 0, 0}, {0, S, 0})}, 0},
    /* 10 to 14: nothing is an instance of an impossible picture, however it is one; everything of the empty one. */
    {{ROWS(ROOT_NONE)}, {ROWS(ROOT_NONE)}, {INDIVIDUALS({0, 0, 0})}, 22},
    {{ROWS(ROOT(NAME(3), NAME(3)))}, {ROWS(ROOT(NAME(4), 0))}, {INDIVIDUALS({0, 0, NAME(3)})}, 22},
    {{ROWS(ROOT(0, 0))}, {ROWS(ROOT(0, 0))}, {INDIVIDUALS({0, 0, 0})}, 23},
    {{ROWS(ROOT(0, 0))}, {ROWS(ROOT_NONE)}, {INDIVIDUALS({0, 0, 0})}, 0},
    {{ROWS(ROOT(0, 0))},
     {ROWS(ROOT(0, 0), ALL_NONE(0, R), SOME(0, R, 0, 0))},
     {INDIVIDUALS({0, 0, 0}, {0, R, NAME(63)})},
     0},
    /* 15 to 22: names that hold, and those that are not mentioned. */
    {{ROWS(ROOT(NAME(0) | NAME(63), NAME(1)))}, {ROWS(ROOT(NAME(2), 0))}, {INDIVIDUALS({0, 0, NAME(0) | NAME(63)})}, 0},
    {{ROWS(ROOT(NAME(0) | NAME(63), NAME(1)))}, {ROWS(ROOT(NAME(2), 0))}, {INDIVIDUALS({0, 0, NAME(0)})}, 22},
    {{ROWS(ROOT(NAME(0) | NAME(63), NAME(1)))}, {ROWS(ROOT(NAME(2), 0))}, {INDIVIDUALS({0, 0, NAME(63)})}, 22},
    {{ROWS(ROOT(0, NAME(62)))}, {ROWS(ROOT(0, NAME(1)))}, {INDIVIDUALS({0, 0, NAME(62) | NAME(1)})}, 22},
    {{ROWS(ROOT(0, NAME(62)))}, {ROWS(ROOT(0, NAME(1)))}, {INDIVIDUALS({0, 0, NAME(1)})}, 0},
    {{ROWS(ROOT(0, NAME(62)))}, {ROWS(ROOT(0, NAME(1)))}, {INDIVIDUALS({0, 0, NAME(63)})}, 23},
    {{ROWS(ROOT(0, 0))}, {ROWS(ROOT(NAME(7), 0))}, {INDIVIDUALS({0, 0, ~NAME(7)})}, 0},
    {{ROWS(ROOT(0, 0))}, {ROWS(ROOT(0, NAME(7)))}, {INDIVIDUALS({0, 0, ~UINT64_C(0)})}, 0},
    /* 23 to 28: an existential restriction wants one that is reached by its role from that individual itself. */
    {{ROWS(ROOT(0, 0), SOME(0, R, NAME(1), 0))}, {ROWS(ROOT_NONE)}, {INDIVIDUALS({0, 0, NAME(1)})}, 22},
    {{ROWS(ROOT(0, 0), SOME(0, R, NAME(1), 0))}, {ROWS(ROOT_NONE)}, {INDIVIDUALS({0, 0, 0}, {0, S, NAME(1)})}, 22},
    {{ROWS(ROOT(0, 0), SOME(0, R, NAME(1), 0))},
     {ROWS(ROOT_NONE)},
     {INDIVIDUALS({0, 0, 0}, {0, R, 0}, {1, R, NAME(1)})},
     22},
    {{ROWS(ROOT(0, 0), SOME(0, R, NAME(1), 0))},
     {ROWS(ROOT_NONE)},
     {INDIVIDUALS({0, 0, 0}, {0, R, 0}, {0, S, NAME(1)}, {0, R, NAME(2)}, {0, R, NAME(1)})},
     0},
    {{ROWS(ROOT(0, 0), SOME(0, 31, NAME(1), 0), SOME(0, 0, NAME(2), 0))},
     {ROWS(ROOT_NONE)},
     {INDIVIDUALS({0, 0, 0}, {0, 31, NAME(1)}, {0, 0, NAME(2)})},
     0},
    {{ROWS(ROOT(0, 0), SOME(0, 31, NAME(1), 0), SOME(0, 0, NAME(2), 0))},
     {ROWS(ROOT_NONE)},
     {INDIVIDUALS({0, 0, 0}, {0, 0, NAME(1)}, {0, 31, NAME(2)})},
     22},
    /* 29 to 33: a value restriction wants every one, whatever it stands after, and no one else. */
    {{ROWS(ROOT(0, 0), ALL(0, R, NAME(1), 0))},
     {ROWS(ROOT_NONE)},
     {INDIVIDUALS({0, 0, 0}, {0, R, NAME(1)}, {0, S, 0}, {1, R, 0}, {0, R, NAME(1) | NAME(2)})},
     0},
    {{ROWS(ROOT(0, 0), ALL(0, R, NAME(1), 0))},
     {ROWS(ROOT_NONE)},
     {INDIVIDUALS({0, 0, 0}, {0, R, 0}, {0, R, NAME(1)})},
     22},
    {{ROWS(ROOT(0, 0), ALL(0, R, NAME(1), 0))},
     {ROWS(ROOT_NONE)},
     {INDIVIDUALS({0, 0, 0}, {0, R, NAME(1)}, {0, R, 0})},
     22},
    {{ROWS(ROOT(0, 0), ALL(0, R, NAME(3), 0), SOME(0, R, NAME(5), 0))},
     {ROWS(ROOT(0, 0), SOME(0, R, NAME(7), 0))},
     {INDIVIDUALS({0, 0, 0}, {0, R, NAME(5)})},
     22},
    {{ROWS(ROOT(0, 0), ALL(0, R, NAME(3), 0), SOME(0, R, NAME(5), 0))},
     {ROWS(ROOT(0, 0), SOME(0, R, NAME(7), 0))},
     {INDIVIDUALS({0, 0, 0}, {0, R, NAME(5) | NAME(3)})},
     0},
    /* 34 to 37: restrictions inside restrictions. */
    {{ROWS(ROOT(0, 0), SOME(0, R, 0, 0), ALL(1, S, NAME(1), 0))},
     {ROWS(ROOT(0, 0), ALL(0, R, 0, 0), ALL(1, S, NAME(1), 0))},
     {INDIVIDUALS({0, 0, 0}, {0, R, 0}, {0, R, 0}, {1, S, 0}, {2, S, NAME(1)})},
     0},
    {{ROWS(ROOT(0, 0), SOME(0, R, 0, 0), ALL(1, S, NAME(1), 0))},
     {ROWS(ROOT(0, 0), ALL(0, R, 0, 0), ALL(1, S, NAME(1), 0))},
     {INDIVIDUALS({0, 0, 0}, {0, R, 0}, {0, R, 0}, {1, S, 0}, {2, S, 0})},
     22},
    {{ROWS(ROOT(0, 0), ALL(0, R, 0, 0), SOME(1, S, NAME(1), 0))},
     {ROWS(ROOT(0, 0), SOME(0, R, 0, 0), SOME(1, S, NAME(1), 0))},
     {INDIVIDUALS({0, 0, 0}, {0, S, 0}, {1, S, NAME(1)})},
     0},
    {{ROWS(ROOT(0, 0), ALL(0, R, 0, 0), SOME(1, S, NAME(1), 0))},
     {ROWS(ROOT(0, 0), SOME(0, R, 0, 0), SOME(1, S, NAME(1), 0))},
     {INDIVIDUALS({0, 0, 0}, {0, R, 0}, {1, S, NAME(1)})},
     23},
    /* 38, 39: an impossible value restriction inside an existential one. */
    {{ROWS(ROOT(0, 0), SOME(0, R, 0, 0), ALL_NONE(1, S))},
     {ROWS(ROOT(0, 0), SOME(0, R, 0, 0), SOME(1, S, 0, 0))},
     {INDIVIDUALS({0, 0, 0}, {0, R, 0})},
     0},
    {{ROWS(ROOT(0, 0), SOME(0, R, 0, 0), ALL_NONE(1, S))},
     {ROWS(ROOT(0, 0), SOME(0, R, 0, 0), SOME(1, S, 0, 0))},
     {INDIVIDUALS({0, 0, 0}, {0, R, 0}, {1, S, 0})},
     22},
};

static void test_refutations(void)
{
    unsigned int i, k;

    for (i = 0; i < sizeof refutations / sizeof refutations[0]; i++) {
        row_list_picture(&in.first, &refutations[i].first);
        row_list_picture(&in.second, &refutations[i].second);
        evidence_clear(&in.evidence);
        for (k = 0; k < refutations[i].individuals.count; k++) {
            const struct individual *of = &refutations[i].individuals.of[k];

            evidence_individual(&in.evidence, of->parent, of->role, of->names);
        }
        evidence_end(&in.evidence);
        verify_check(
            &in, refutations[i].question == 0 ? word_refutation_taken() : word_evidence(refutations[i].question), i);
    }
}

/* So many individuals, each below the one before, as evidence for a pair that every refutation refutes. */
static void make_individuals(unsigned int count)
{
    unsigned int i;

    rows_picture(&in.first, ROWS(ROOT(0, 0)));
    rows_picture(&in.second, ROWS(ROOT_NONE));
    evidence_clear(&in.evidence);
    for (i = 0; i < count; i++)
        evidence_individual(&in.evidence, i == 0 ? 0 : i - 1, i == 0 ? 0 : i % ZUVAROPY_ROLES,
                            NAME(i % ZUVAROPY_NAMES));
    evidence_end(&in.evidence);
}

static uint64_t wanted_word(int good)
{
    return good ? word_refutation_taken() : word_evidence(21);
}

/* Every individual, with parents from 0 to past the last one, and the highest. */
static void test_parents(unsigned int count)
{
    unsigned int i, parent;

    for (i = 0; i < count; i += 1 + i / 8)
        for (parent = 0; parent <= 0xFFFF; parent += parent < count + 2 ? 1 : 1 + parent / 2) {
            make_individuals(count);
            evidence_put(evidence_value(&in.evidence, i) + ZUVAROPY_INDIVIDUAL_PARENT_AT, parent);
            CHECK_WORD(verify_any(&in, i), wanted_word(parent < i || (i == 0 && parent == 0)), parent);
        }
    make_individuals(count);
    evidence_put(evidence_value(&in.evidence, count - 1) + ZUVAROPY_INDIVIDUAL_PARENT_AT, 0xFFFF);
    verify_check(&in, word_evidence(21), count);
}

/* Every individual, with every role. */
static void test_roles(unsigned int count)
{
    unsigned int i, role;

    for (i = 0; i < count; i += 1 + i / 8)
        for (role = 0; role <= 0xFF; role++) {
            make_individuals(count);
            evidence_value(&in.evidence, i)[ZUVAROPY_INDIVIDUAL_ROLE_AT] = (uint8_t)role;
            CHECK_WORD(verify_any(&in, i), wanted_word(role < (i == 0 ? 1 : ZUVAROPY_ROLES)), role);
        }
}

static void test_individuals(void)
{
    static const unsigned int counts[] = {1, 2, 3, 12, 300};
    unsigned int i;

    for (i = 0; i < sizeof counts / sizeof counts[0]; i++) {
        make_individuals(counts[i]);
        verify_check(&in, word_refutation_taken(), i);
        test_parents(counts[i]);
        test_roles(counts[i]);
    }
}

int main(void)
{
    test_refutations();
    test_individuals();
    return check_summary("verify, refutations");
}

/*
 * Common pictures by hand, and the exact bytes of one answer.
 */

#include "calls.h"
#include "check.h"
#include "lcs.h"
#include "rows.h"

#include <string.h>

#define R 8
#define S 9

static struct pair pair;

static const struct {
    struct row_list first, second, common;
} cases[] = {
    /* 0: each existential restriction with each; what two have in common may be nothing but that there is one. */
    {{ROWS(ROOT(NAME(3), 0), SOME(0, R, NAME(4), 0))},
     {ROWS(ROOT(NAME(3) | NAME(5), 0), SOME(0, R, NAME(4) | NAME(6), 0), SOME(0, R, NAME(7), 0))},
     {ROWS(ROOT(NAME(3), 0), SOME(0, R, NAME(4), 0), SOME(0, R, 0, 0))}},
    /* 1, 2: a value restriction that says nothing is dropped; an impossible one has all of any other in common. */
    {{ROWS(ROOT(0, 0), ALL(0, R, NAME(3), 0))}, {ROWS(ROOT(0, 0), ALL(0, R, NAME(5), 0))}, {ROWS(ROOT(0, 0))}},
    {{ROWS(ROOT(0, 0), ALL_NONE(0, R))},
     {ROWS(ROOT(0, 0), ALL(0, R, NAME(5), 0))},
     {ROWS(ROOT(0, 0), ALL(0, R, NAME(5), 0))}},
    /* 3 to 6: the normal tables are paired, and not the pictures. */
    {{ROWS(ROOT(0, 0), ALL(0, R, NAME(3), 0), SOME(0, R, NAME(5), 0))},
     {ROWS(ROOT(0, 0), SOME(0, R, NAME(3), 0))},
     {ROWS(ROOT(0, 0), SOME(0, R, NAME(3), 0))}},
    {{ROWS(ROOT(0, 0), ALL(0, R, NAME(3), 0), SOME(0, R, NAME(5), 0))},
     {ROWS(ROOT(0, 0), ALL(0, R, NAME(5), 0), SOME(0, R, NAME(3), 0))},
     {ROWS(ROOT(0, 0), SOME(0, R, NAME(3) | NAME(5), 0))}},
    {{ROWS(ROOT(0, 0), ALL(0, R, 0, 0), SOME(1, S, NAME(1), 0), SOME(0, R, NAME(2), 0))},
     {ROWS(ROOT(0, 0), SOME(0, R, 0, 0), SOME(1, S, NAME(1) | NAME(2), 0))},
     {ROWS(ROOT(0, 0), SOME(0, R, 0, 0), SOME(1, S, NAME(1), 0))}},
    {{ROWS(ROOT(0, 0), ALL(0, R, NAME(3), 0), ALL(0, R, NAME(5), 0))},
     {ROWS(ROOT(0, 0), ALL(0, R, NAME(5) | NAME(6), 0))},
     {ROWS(ROOT(0, 0), ALL(0, R, NAME(5), 0))}},
    /* 7 to 12: names, wanted with wanted and excluded with excluded. */
    {{ROWS(ROOT(NAME(0) | NAME(1) | NAME(63), NAME(2) | NAME(62)))},
     {ROWS(ROOT(NAME(0) | NAME(63) | NAME(7), NAME(62) | NAME(32)))},
     {ROWS(ROOT(NAME(0) | NAME(63), NAME(62)))}},
    {{ROWS(ROOT(NAME(7), NAME(8)))}, {ROWS(ROOT(NAME(8), NAME(7)))}, {ROWS(ROOT(0, 0))}},
    {{ROWS(ROOT(~NAME(0), NAME(0)))}, {ROWS(ROOT(~NAME(0), NAME(0)))}, {ROWS(ROOT(~NAME(0), NAME(0)))}},
    {{ROWS(ROOT(0, ~NAME(63)))}, {ROWS(ROOT(0, ~NAME(0)))}, {ROWS(ROOT(0, ~(NAME(0) | NAME(63))))}},
    {{ROWS(ROOT(0, 0), ALL(0, R, 0, NAME(1) | NAME(2)))},
     {ROWS(ROOT(0, 0), ALL(0, R, NAME(1), NAME(2)))},
     {ROWS(ROOT(0, 0), ALL(0, R, 0, NAME(2)))}},
    {{ROWS(ROOT(0, 0), SOME(0, R, NAME(1), NAME(2)))},
     {ROWS(ROOT(0, 0), SOME(0, R, NAME(2), NAME(1)))},
     {ROWS(ROOT(0, 0), SOME(0, R, 0, 0))}},
    /* 13 to 17: other roles, other kinds and other depths have nothing in common. */
    {{ROWS(ROOT(0, 0), SOME(0, R, NAME(1), 0))}, {ROWS(ROOT(0, 0), SOME(0, S, NAME(1), 0))}, {ROWS(ROOT(0, 0))}},
    {{ROWS(ROOT(0, 0), ALL(0, 0, NAME(1), 0))}, {ROWS(ROOT(0, 0), ALL(0, 31, NAME(1), 0))}, {ROWS(ROOT(0, 0))}},
    {{ROWS(ROOT(0, 0), SOME(0, R, NAME(1), 0))}, {ROWS(ROOT(0, 0), ALL(0, R, NAME(1), 0))}, {ROWS(ROOT(0, 0))}},
    {{ROWS(ROOT(0, 0), ALL_NONE(0, R))}, {ROWS(ROOT(0, 0), SOME(0, R, NAME(1), 0))}, {ROWS(ROOT(0, 0))}},
    {{ROWS(ROOT(0, 0), SOME(0, R, NAME(1), 0), SOME(1, S, NAME(2), 0))},
     {ROWS(ROOT(0, 0), SOME(0, S, NAME(2), 0), SOME(1, R, NAME(1), 0))},
     {ROWS(ROOT(0, 0))}},
    /* 18 to 21: by role, the value restriction first, then by the first's row and the second's; depth first. */
    {{ROWS(ROOT(0, 0), SOME(0, R, NAME(0) | NAME(1), 0), SOME(0, R, NAME(2) | NAME(3), 0))},
     {ROWS(ROOT(0, 0), SOME(0, R, NAME(0) | NAME(2), 0), SOME(0, R, NAME(1) | NAME(3), 0))},
     {ROWS(ROOT(0, 0), SOME(0, R, NAME(0), 0), SOME(0, R, NAME(1), 0), SOME(0, R, NAME(2), 0),
           SOME(0, R, NAME(3), 0))}},
    {{ROWS(ROOT(0, 0), SOME(0, 31, NAME(1), 0), SOME(0, 0, NAME(2), 0), ALL(0, 31, NAME(3), 0), ALL(0, 0, NAME(4), 0))},
     {ROWS(ROOT(0, 0), ALL(0, 31, NAME(3), 0), SOME(0, 31, NAME(1), 0), ALL(0, 0, NAME(4), 0), SOME(0, 0, NAME(2), 0))},
     {ROWS(ROOT(0, 0), ALL(0, 0, NAME(4), 0), SOME(0, 0, NAME(2) | NAME(4), 0), ALL(0, 31, NAME(3), 0),
           SOME(0, 31, NAME(1) | NAME(3), 0))}},
    {{ROWS(ROOT(0, 0), SOME(0, R, NAME(1), 0), SOME(1, S, NAME(2), 0), SOME(0, R, NAME(3), 0), SOME(3, S, NAME(4), 0))},
     {ROWS(ROOT(0, 0), SOME(0, R, NAME(1) | NAME(3), 0), SOME(1, S, NAME(2) | NAME(4), 0))},
     {ROWS(ROOT(0, 0), SOME(0, R, NAME(1), 0), SOME(1, S, NAME(2), 0), SOME(0, R, NAME(3), 0),
           SOME(3, S, NAME(4), 0))}},
    {{ROWS(ROOT(0, 0), SOME(0, R, 0, 0), SOME(0, S, 0, 0), SOME(1, R, NAME(1), 0), SOME(3, S, NAME(2), 0))},
     {ROWS(ROOT(0, 0), SOME(0, R, 0, 0), SOME(1, R, NAME(1), 0), SOME(2, S, NAME(2), 0), SOME(0, S, 0, 0))},
     {ROWS(ROOT(0, 0), SOME(0, R, 0, 0), SOME(1, R, NAME(1), 0), SOME(2, S, NAME(2), 0), SOME(0, S, 0, 0))}},
    /* 22 to 28: dropping, from the leaves up; an empty existential restriction is never dropped, and keeps what it is
     * below. */
    {{ROWS(ROOT(0, 0), ALL(0, R, 0, 0), ALL(1, S, NAME(1), 0))},
     {ROWS(ROOT(0, 0), ALL(0, R, 0, 0), ALL(1, S, NAME(2), 0))},
     {ROWS(ROOT(0, 0))}},
    {{ROWS(ROOT(0, 0), ALL(0, R, NAME(3), 0), ALL(1, S, NAME(1), 0))},
     {ROWS(ROOT(0, 0), ALL(0, R, NAME(4), 0), ALL(1, S, NAME(1), 0))},
     {ROWS(ROOT(0, 0), ALL(0, R, 0, 0), ALL(1, S, NAME(1), 0))}},
    {{ROWS(ROOT(0, 0), ALL(0, R, NAME(3), 0), ALL(1, S, NAME(1), 0))},
     {ROWS(ROOT(0, 0), ALL(0, R, NAME(3), 0), ALL(1, S, NAME(2), 0))},
     {ROWS(ROOT(0, 0), ALL(0, R, NAME(3), 0))}},
    {{ROWS(ROOT(0, 0), ALL(0, R, 0, 0), SOME(1, S, NAME(1), 0))},
     {ROWS(ROOT(0, 0), ALL(0, R, 0, 0), SOME(1, S, NAME(2), 0))},
     {ROWS(ROOT(0, 0), ALL(0, R, 0, 0), SOME(1, S, 0, 0))}},
    {{ROWS(ROOT(0, 0), SOME(0, R, NAME(1), 0), ALL(1, S, NAME(3), 0))},
     {ROWS(ROOT(0, 0), SOME(0, R, NAME(2), 0), ALL(1, S, NAME(4), 0))},
     {ROWS(ROOT(0, 0), SOME(0, R, 0, 0))}},
    {{ROWS(ROOT(0, 0), ALL(0, R, NAME(1), 0), ALL(0, S, NAME(1), 0), ALL(0, 31, NAME(1), 0))},
     {ROWS(ROOT(0, 0), ALL(0, R, NAME(2), 0), ALL(0, S, NAME(1), 0), ALL(0, 31, NAME(2), 0))},
     {ROWS(ROOT(0, 0), ALL(0, S, NAME(1), 0))}},
    {{ROWS(ROOT(0, 0), ALL(0, R, 0, 0), ALL(1, R, NAME(1), 0), ALL(1, S, NAME(2), 0), SOME(0, S, 0, 0))},
     {ROWS(ROOT(0, 0), ALL(0, R, 0, 0), ALL(1, R, NAME(3), 0), ALL(1, S, NAME(2), 0), SOME(0, S, 0, 0))},
     {ROWS(ROOT(0, 0), ALL(0, R, 0, 0), ALL(1, S, NAME(2), 0), SOME(0, S, 0, 0))}},
    /* 29 to 37: an impossible side gives way to the other side's whole subtree. */
    {{ROWS(ROOT_NONE)},
     {ROWS(ROOT(NAME(1), NAME(2)), SOME(0, R, NAME(3), 0), ALL(1, S, NAME(4), 0))},
     {ROWS(ROOT(NAME(1), NAME(2)), SOME(0, R, NAME(3), 0), ALL(1, S, NAME(4), 0))}},
    {{ROWS(ROOT(NAME(1), 0), ALL(0, R, NAME(3), 0), SOME(0, R, NAME(4), 0))},
     {ROWS(ROOT(NAME(5), NAME(5)), SOME(0, R, 0, 0))},
     {ROWS(ROOT(NAME(1), 0), ALL(0, R, NAME(3), 0), SOME(0, R, NAME(3) | NAME(4), 0))}},
    {{ROWS(ROOT_NONE)}, {ROWS(ROOT(0, 0), ALL_NONE(0, R), SOME(0, R, 0, 0))}, {ROWS(ROOT_NONE)}},
    {{ROWS(ROOT(0, 0), ALL_NONE(0, R))}, {ROWS(ROOT(0, 0), ALL_NONE(0, R))}, {ROWS(ROOT(0, 0), ALL_NONE(0, R))}},
    {{ROWS(ROOT(0, 0), ALL_NONE(0, R), SOME(0, S, NAME(1), 0))},
     {ROWS(ROOT(0, 0), ALL(0, R, 0, 0), SOME(1, S, NAME(2), 0), ALL(1, S, NAME(3), 0), SOME(2, R, 0, 0),
           SOME(0, S, NAME(1), 0))},
     {ROWS(ROOT(0, 0), ALL(0, R, 0, 0), ALL(1, S, NAME(3), 0), SOME(1, S, NAME(2) | NAME(3), 0), SOME(3, R, 0, 0),
           SOME(0, S, NAME(1), 0))}},
    {{ROWS(ROOT(0, 0), SOME(0, R, NAME(1), 0), ALL(1, S, 0, 0), SOME(2, R, NAME(4), 0))},
     {ROWS(ROOT(0, 0), SOME(0, R, NAME(1), 0), ALL_NONE(1, S))},
     {ROWS(ROOT(0, 0), SOME(0, R, NAME(1), 0), ALL(1, S, 0, 0), SOME(2, R, NAME(4), 0))}},
    {{ROWS(ROOT(0, 0), ALL(0, R, 0, 0), ALL_NONE(1, S))},
     {ROWS(ROOT(0, 0), ALL_NONE(0, R))},
     {ROWS(ROOT(0, 0), ALL(0, R, 0, 0), ALL_NONE(1, S))}},
    {{ROWS(ROOT(0, 0), SOME(0, R, NAME(1), 0), SOME(0, R, NAME(2), 0), ALL_NONE(0, S))},
     {ROWS(ROOT(0, 0), SOME(0, R, NAME(1), 0), SOME(0, R, NAME(2), 0), ALL(0, S, NAME(3), 0), SOME(3, R, NAME(4), 0),
           SOME(4, S, NAME(5), 0), SOME(3, S, 0, 0))},
     {ROWS(ROOT(0, 0), SOME(0, R, NAME(1), 0), SOME(0, R, 0, 0), SOME(0, R, 0, 0), SOME(0, R, NAME(2), 0),
           ALL(0, S, NAME(3), 0), SOME(5, R, NAME(4), 0), SOME(6, S, NAME(5), 0), SOME(5, S, 0, 0))}},
    {{ROWS(ROOT(0, 0), ALL(0, R, NAME(1), 0), ALL(1, R, NAME(1), 0), ALL(0, S, 0, 0), SOME(3, R, 0, NAME(2)),
           ALL(4, S, NAME(3), 0))},
     {ROWS(ROOT(0, 0), ALL(0, R, NAME(2), 0), ALL(1, R, NAME(2), 0), ALL_NONE(0, S))},
     {ROWS(ROOT(0, 0), ALL(0, S, 0, 0), SOME(1, R, 0, NAME(2)), ALL(2, S, NAME(3), 0))}},
    /* 38, 39: a picture with itself; of two existential restrictions there are four pairs. */
    {{ROWS(ROOT(0, 0), ALL(0, R, 0, 0), SOME(1, S, NAME(1), 0), SOME(0, R, NAME(2), 0))},
     {ROWS(ROOT(0, 0), ALL(0, R, 0, 0), SOME(1, S, NAME(1), 0), SOME(0, R, NAME(2), 0))},
     {ROWS(ROOT(0, 0), ALL(0, R, 0, 0), SOME(1, S, NAME(1), 0), SOME(0, R, NAME(2), 0), SOME(3, S, NAME(1), 0))}},
    {{ROWS(ROOT(0, 0), SOME(0, R, NAME(1), 0), SOME(0, R, NAME(2), 0))},
     {ROWS(ROOT(0, 0), SOME(0, R, NAME(1), 0), SOME(0, R, NAME(2), 0))},
     {ROWS(ROOT(0, 0), SOME(0, R, NAME(1), 0), SOME(0, R, 0, 0), SOME(0, R, 0, 0), SOME(0, R, NAME(2), 0))}},
};

#define CASES (sizeof cases / sizeof cases[0])

static void make_case(unsigned int i)
{
    row_list_picture(&pair.first, &cases[i].first);
    row_list_picture(&pair.second, &cases[i].second);
}

static int same(const struct picture *a, const struct picture *b)
{
    return a->length == b->length && memcmp(a->bytes, b->bytes, a->length) == 0;
}

/* The other way round it says the same. */
static void test_cases(void)
{
    static struct picture common;
    unsigned int i;

    for (i = 0; i < CASES; i++) {
        make_case(i);
        lcs_check(&pair, word_length((unsigned int)cases[i].common.count), i);
        row_list_picture(&common, &cases[i].common);
        CHECK(same(&pair.common, &common));
        CHECK(lcs_check_subsumes(&pair));

        row_list_picture(&pair.first, &cases[i].second);
        row_list_picture(&pair.second, &cases[i].first);
        lcs_check(&pair, word_length((unsigned int)cases[i].common.count), i);
        lcs_check_equivalent(&pair.common, &common);
    }
}

/* Every byte of one answer: that of the first case. */
static void test_bytes(void)
{
    static const uint8_t common[75] = {
        0x10, 0, 21, 0, 0, 0, 0, 0, 0, 0, 0, 0, 0, 0, 0, 0x08, 0, 0, 0, 0, 0, 0, 0, 0, /* row 0: name 3 */
        0x10, 0, 21, 0, 0, 1, 8, 0, 0, 0, 0, 0, 0, 0, 0, 0x10, 0, 0, 0, 0, 0, 0, 0, 0, /* row 1: some 8, name 4 */
        0x10, 0, 21, 0, 0, 1, 8, 0, 0, 0, 0, 0, 0, 0, 0, 0x00, 0, 0, 0, 0, 0, 0, 0, 0, /* row 2: some 8 */
        0x2F, 0, 0,
    };
    static uint8_t work[12294 + 10], result[6147 + 10];
    size_t i;

    memset(work, 0xA5, sizeof work);
    memset(result, 0xA5, sizeof result);
    make_case(0);
    CHECK_WORD(call_lcs(pair.first.bytes, 51, pair.second.bytes, 75, work, sizeof work, result, sizeof result),
               UINT64_C(0x010000000000004B), 0);
    CHECK(memcmp(result, common, sizeof common) == 0);
    for (i = sizeof common; i < sizeof result && result[i] == 0xA5; i++)
        ;
    CHECK(i == sizeof result);
    CHECK(memcmp(work, pair.first.bytes, 51) == 0);
    CHECK(memcmp(work + 6147, pair.second.bytes, 75) == 0);
    for (i = 51; i < 12294 && (work[i] == 0 || (i >= 6147 && i < 6147 + 75)); i++)
        ;
    CHECK(i == 12294);
    for (; i < sizeof work && work[i] == 0xA5; i++)
        ;
    CHECK(i == sizeof work);
}

/* A picture has itself in common with itself, nothing with the empty one, its normal table with an impossible one. */
static void test_every(void)
{
    static struct picture table;
    unsigned int i;

    for (i = 0; i < CASES; i++) {
        make_case(i);
        pair.second = pair.first;
        CHECK(zuvaropy_outcome(lcs_any(&pair, i)) == ZUVAROPY_OUTCOME_YES);
        lcs_check_equivalent(&pair.common, &pair.first);

        rows_picture(&pair.second, ROWS(ROOT(0, 0), ALL(0, R, 0, 0)));
        if (cases[i].first.rows[0].impossible == 0)
            lcs_check(&pair, word_length(1), i);

        rows_picture(&pair.second, ROWS(ROOT(0, 0), ALL_NONE(0, R), SOME(0, R, NAME(1), 0)));
        lcs_any(&pair, i);
        table.length = zuvaropy_value(
            call_normalize(pair.first.bytes, pair.first.length, table.bytes, ZUVAROPY_MAX_PICTURE_BYTES));
        CHECK(same(&pair.common, &table));
    }
}

/* A picture that subsumes both of two subsumes what they have in common. */
static void test_least(void)
{
    static struct picture general;
    unsigned int i, j, found = 0;

    for (i = 0; i < CASES; i++)
        for (j = 0; j < 3 * CASES; j++) {
            make_case(i);
            row_list_picture(&general, j % 3 == 0   ? &cases[j / 3].first
                                       : j % 3 == 1 ? &cases[j / 3].second
                                                    : &cases[j / 3].common);
            if (lcs_subsumes(&pair.first, &general) == ZUVAROPY_OUTCOME_YES &&
                lcs_subsumes(&pair.second, &general) == ZUVAROPY_OUTCOME_YES) {
                row_list_picture(&pair.common, &cases[i].common);
                CHECK(lcs_subsumes(&pair.common, &general) == ZUVAROPY_OUTCOME_YES);
                found++;
            }
        }
    CHECK(found > 3 * CASES);
}

int main(void)
{
    test_cases();
    test_bytes();
    test_every();
    test_least();
    return check_summary("lcs");
}

/*
 * Verdicts by hand, each with the map that has to be written where it is yes,
 * and the exact bytes of one answer.
 */

#include "calls.h"
#include "check.h"
#include "rows.h"
#include "subsumes.h"

#include <string.h>

#define R 8
#define S 9

static struct inputs in;

/* The images of the second normal table's rows; none: the verdict is no. */
static const struct {
    struct row_list first, second;
    struct {
        const unsigned int *of;
        size_t count;
    } images;
} verdicts[] = {
/* Nothing to send, for no. */
#define NO {NULL, 0}
    /* 0, 1: names 3 and 5 at one successor are at one each, but not the reverse. */
    {{ROWS(ROOT(0, 0), SOME(0, R, NAME(3) | NAME(5), 0))},
     {ROWS(ROOT(0, 0), SOME(0, R, NAME(3), 0), SOME(0, R, NAME(5), 0))},
     {IMAGES(0, 1, 1)}},
    {{ROWS(ROOT(0, 0), SOME(0, R, NAME(3), 0), SOME(0, R, NAME(5), 0))},
     {ROWS(ROOT(0, 0), SOME(0, R, NAME(3) | NAME(5), 0))},
     NO},
    /* 2 to 7: an impossible value restriction says any other by its role, but no existential one. */
    {{ROWS(ROOT(0, 0), ALL_NONE(0, R))}, {ROWS(ROOT(0, 0), ALL(0, R, NAME(5), 0))}, {IMAGES(0, 1)}},
    {{ROWS(ROOT(0, 0), ALL(0, R, NAME(5), 0))}, {ROWS(ROOT(0, 0), ALL_NONE(0, R))}, NO},
    {{ROWS(ROOT(0, 0), ALL_NONE(0, R))}, {ROWS(ROOT(0, 0), SOME(0, R, 0, 0))}, NO},
    {{ROWS(ROOT(0, 0), SOME(0, R, 0, 0))}, {ROWS(ROOT(0, 0), ALL_NONE(0, R))}, NO},
    {{ROWS(ROOT(0, 0), ALL_NONE(0, R))}, {ROWS(ROOT(0, 0), ALL(0, S, NAME(5), 0))}, NO},
    {{ROWS(ROOT(0, 0), ALL_NONE(0, R))}, {ROWS(ROOT(0, 0), ALL_NONE(0, R))}, {IMAGES(0, 1)}},
    /* 8 to 12: the empty picture, also where it is not written as one. */
    {{ROWS(ROOT(0, 0))}, {ROWS(ROOT(0, 0))}, {IMAGES(0)}},
    {{ROWS(ROOT(0, 0))}, {ROWS(ROOT(0, 0), ALL(0, R, 0, 0))}, {IMAGES(0)}},
    {{ROWS(ROOT(0, 0), ALL(0, R, 0, 0), ALL(1, S, 0, 0))}, {ROWS(ROOT(0, 0))}, {IMAGES(0)}},
    {{ROWS(ROOT(0, 0))}, {ROWS(ROOT(0, 0), SOME(0, R, 0, 0))}, NO},
    {{ROWS(ROOT(0, 0), ALL(0, R, 0, 0))}, {ROWS(ROOT(0, 0), ALL(0, R, 0, NAME(0)))}, NO},
    /* 13 to 18: an impossible picture, however it is one, is subsumed by all; only such subsume it. */
    {{ROWS(ROOT(NAME(3), NAME(3)))}, {ROWS(ROOT(NAME(1), NAME(2)), SOME(0, R, NAME(3), 0))}, {IMAGES(0, 0)}},
    {{ROWS(ROOT(0, 0), ALL_NONE(0, R), SOME(0, R, 0, 0))},
     {ROWS(ROOT(0, 0), ALL(0, R, 0, 0), SOME(1, S, 0, 0), ALL_NONE(0, 31))},
     {IMAGES(0, 0, 0, 0)}},
    {{ROWS(ROOT_NONE)}, {ROWS(ROOT(NAME(3), NAME(3)), SOME(0, R, 0, 0))}, {IMAGES(0)}},
    {{ROWS(ROOT(NAME(1), 0))}, {ROWS(ROOT_NONE)}, NO},
    {{ROWS(ROOT(NAME(1), 0), SOME(0, R, 0, 0))}, {ROWS(ROOT(0, 0), SOME_NONE(0, S))}, NO},
    {{ROWS(ROOT(0, 0))}, {ROWS(ROOT(NAME(63), NAME(63)))}, NO},
    /* 19 to 25: names. What is not mentioned is neither wanted nor excluded. */
    {{ROWS(ROOT(NAME(0) | NAME(1) | NAME(63), NAME(2) | NAME(62)))},
     {ROWS(ROOT(NAME(0) | NAME(63), NAME(62)))},
     {IMAGES(0)}},
    {{ROWS(ROOT(NAME(0), 0))}, {ROWS(ROOT(NAME(0) | NAME(63), 0))}, NO},
    {{ROWS(ROOT(NAME(63), 0))}, {ROWS(ROOT(NAME(0), 0))}, NO},
    {{ROWS(ROOT(0, NAME(0)))}, {ROWS(ROOT(0, NAME(63)))}, NO},
    {{ROWS(ROOT(0, NAME(63)))}, {ROWS(ROOT(0, NAME(0) | NAME(63)))}, NO},
    {{ROWS(ROOT(0, NAME(7)))}, {ROWS(ROOT(NAME(7), 0))}, NO},
    {{ROWS(ROOT(NAME(7), 0))}, {ROWS(ROOT(0, NAME(7)))}, NO},
    /* 26 to 31: value restrictions by one role say together what they say apart. */
    {{ROWS(ROOT(0, 0), ALL(0, R, NAME(3), 0), ALL(0, R, NAME(5), 0))},
     {ROWS(ROOT(0, 0), ALL(0, R, NAME(3) | NAME(5), 0))},
     {IMAGES(0, 1)}},
    {{ROWS(ROOT(0, 0), ALL(0, R, NAME(3) | NAME(5), 0))},
     {ROWS(ROOT(0, 0), ALL(0, R, NAME(3), 0), ALL(0, R, NAME(5), 0))},
     {IMAGES(0, 1)}},
    {{ROWS(ROOT(0, 0), ALL(0, R, NAME(3), 0))}, {ROWS(ROOT(0, 0), ALL(0, R, NAME(3) | NAME(5), 0))}, NO},
    {{ROWS(ROOT(0, 0), ALL(0, R, NAME(3), 0), SOME(0, R, NAME(5), 0))},
     {ROWS(ROOT(0, 0), SOME(0, R, NAME(3) | NAME(5), 0))},
     {IMAGES(0, 2)}},
    {{ROWS(ROOT(0, 0), SOME(0, R, NAME(3) | NAME(5), 0))},
     {ROWS(ROOT(0, 0), ALL(0, R, NAME(3), 0), SOME(0, R, NAME(5), 0))},
     NO},
    {{ROWS(ROOT(0, 0), ALL(0, R, NAME(3), 0))}, {ROWS(ROOT(0, 0), ALL(0, S, NAME(3), 0))}, NO},
    /* 32 to 36: edges of another role, another kind or from another row. */
    {{ROWS(ROOT(0, 0), SOME(0, R, 0, 0))}, {ROWS(ROOT(0, 0), SOME(0, S, 0, 0))}, NO},
    {{ROWS(ROOT(0, 0), SOME(0, 31, 0, 0))}, {ROWS(ROOT(0, 0), SOME(0, 0, 0, 0))}, NO},
    {{ROWS(ROOT(0, 0), SOME(0, R, NAME(3), 0))}, {ROWS(ROOT(0, 0), ALL(0, R, NAME(3), 0))}, NO},
    {{ROWS(ROOT(0, 0), SOME(0, R, 0, 0), SOME(1, S, 0, 0))}, {ROWS(ROOT(0, 0), SOME(0, S, 0, 0))}, NO},
    {{ROWS(ROOT(0, 0), SOME(0, R, 0, 0), SOME(1, S, NAME(1), 0), SOME(1, S, NAME(2), 0))},
     {ROWS(ROOT(0, 0), SOME(0, R, 0, 0), SOME(1, S, NAME(2), 0))},
     {IMAGES(0, 1, 3)}},
    /* 37 to 39: of several rows that would do the lowest, for each row anew. */
    {{ROWS(ROOT(0, 0), SOME(0, R, NAME(1), 0), SOME(0, R, NAME(1), 0), SOME(0, R, NAME(1) | NAME(2), 0))},
     {ROWS(ROOT(0, 0), SOME(0, R, NAME(1), 0), SOME(0, R, NAME(2), 0), SOME(0, R, 0, 0))},
     {IMAGES(0, 1, 3, 1)}},
    {{ROWS(ROOT(0, 0), SOME(0, 31, 0, 0), SOME(0, 0, 0, 0))},
     {ROWS(ROOT(0, 0), SOME(0, 31, 0, 0), SOME(0, 0, 0, 0))},
     {IMAGES(0, 1, 2)}}, /* normal tables are ordered by role */
    {{ROWS(ROOT(0, 0), SOME(0, R, 0, 0), SOME(1, S, NAME(1) | NAME(2), 0))},
     {ROWS(ROOT(0, 0), SOME(0, R, 0, 0), SOME(1, S, NAME(1), 0), SOME(0, R, 0, 0), SOME(3, S, NAME(2), 0))},
     {IMAGES(0, 1, 2, 1, 2)}},
    /* 40 to 43: a row whose names agree will not do if its subtree does not. */
    {{ROWS(ROOT(0, 0), SOME(0, R, NAME(1), 0), SOME(0, R, NAME(1), 0), SOME(2, S, 0, 0))},
     {ROWS(ROOT(0, 0), SOME(0, R, NAME(1), 0), SOME(1, S, 0, 0))},
     {IMAGES(0, 2, 3)}},
    {{ROWS(ROOT(0, 0), SOME(0, R, 0, 0), SOME(1, R, 0, 0), SOME(2, R, NAME(1), 0), SOME(0, R, 0, 0), SOME(4, R, 0, 0),
           SOME(5, R, NAME(2), 0))},
     {ROWS(ROOT(0, 0), SOME(0, R, 0, 0), SOME(1, R, 0, 0), SOME(2, R, NAME(2), 0))},
     {IMAGES(0, 4, 5, 6)}},
    {{ROWS(ROOT(0, 0), SOME(0, R, 0, 0), SOME(1, S, NAME(1), 0), SOME(0, R, 0, 0), SOME(3, S, NAME(2), 0))},
     {ROWS(ROOT(0, 0), SOME(0, R, 0, 0), SOME(1, S, NAME(1), 0), SOME(1, S, NAME(2), 0))},
     NO},
    {{ROWS(ROOT(0, 0), SOME(0, R, 0, 0), ALL(1, S, NAME(1), 0), SOME(0, R, 0, 0), ALL_NONE(3, S))},
     {ROWS(ROOT(0, 0), SOME(0, R, 0, 0), ALL(1, S, NAME(2), 0))},
     {IMAGES(0, 3, 4)}},
    /* 44 to 46: all below an impossible image goes to it too, and what stands beside it does not. */
    {{ROWS(ROOT(0, 0), ALL_NONE(0, R), ALL_NONE(0, S))},
     {ROWS(ROOT(0, 0), ALL(0, R, 0, 0), SOME(1, S, NAME(1), NAME(2)), ALL_NONE(2, R))},
     {IMAGES(0, 1, 1, 1)}},
    {{ROWS(ROOT(0, 0), ALL_NONE(0, R), SOME(0, S, NAME(1), 0))},
     {ROWS(ROOT(0, 0), ALL(0, R, 0, 0), SOME(1, S, NAME(2), 0), SOME(0, S, NAME(1), 0))},
     {IMAGES(0, 1, 1, 2)}},
    {{ROWS(ROOT(0, 0), ALL_NONE(0, R), SOME(0, S, NAME(1), 0))},
     {ROWS(ROOT(0, 0), ALL(0, R, 0, 0), SOME(1, S, NAME(2), 0), SOME(0, S, NAME(2), 0))},
     NO},
    /* 47 to 49: what a value restriction says stands below the existential one too, and so in the images. */
    {{ROWS(ROOT(0, 0), ALL(0, R, 0, 0), SOME(1, S, NAME(1), 0), SOME(0, R, NAME(2), 0))},
     {ROWS(ROOT(0, 0), SOME(0, R, NAME(2), 0), SOME(1, S, NAME(1), 0))},
     {IMAGES(0, 3, 4)}},
    {{ROWS(ROOT(0, 0), ALL(0, R, 0, 0), SOME(1, S, NAME(1), 0), SOME(0, R, NAME(2), 0))},
     {ROWS(ROOT(0, 0), ALL(0, R, 0, 0), SOME(1, S, NAME(1), 0), SOME(0, R, NAME(2), 0))},
     {IMAGES(0, 1, 2, 3, 4)}},
    {{ROWS(ROOT(0, 0), ALL(0, R, 0, 0), SOME(1, S, NAME(1), 0), SOME(0, R, NAME(2), 0))},
     {ROWS(ROOT(0, 0), ALL(0, R, 0, 0), SOME(1, S, NAME(1), 0), SOME(0, R, NAME(2), 0), SOME(3, S, NAME(1), 0))},
     {IMAGES(0, 1, 2, 3, 4, 4)}}, /* the second is the first's normal table */
#undef NO
};

#define VERDICTS (sizeof verdicts / sizeof verdicts[0])

static void test_verdicts(void)
{
    static struct evidence map;
    unsigned int i;

    for (i = 0; i < VERDICTS; i++) {
        const unsigned int rows = (unsigned int)verdicts[i].images.count;

        row_list_picture(&in.first, &verdicts[i].first);
        row_list_picture(&in.second, &verdicts[i].second);
        subsumes_check(&in, rows > 0 ? word_yes(rows) : word_no(), i);
        if (rows > 0) {
            evidence_map(&map, verdicts[i].images.of, rows);
            CHECK(in.evidence.length == map.length && memcmp(in.evidence.bytes, map.bytes, map.length) == 0);
        }
    }
}

/* Every byte of one answer: that of the first pair. */
static void test_bytes(void)
{
    static const uint8_t map[] = {0x41, 0, 6, 0, 0, 0, 1, 0, 1, 0x2F, 0, 0};
    static uint8_t work[12294], result[46595];
    size_t i;

    memset(work, 0xA5, sizeof work);
    memset(result, 0xA5, sizeof result);
    row_list_picture(&in.first, &verdicts[0].first);
    row_list_picture(&in.second, &verdicts[0].second);
    CHECK_WORD(call_subsumes(in.first.bytes, 51, in.second.bytes, 75, work, sizeof work, result, sizeof result),
               UINT64_C(0x010000000000000C), 0);
    CHECK(memcmp(result, map, sizeof map) == 0);
    for (i = sizeof map; i < sizeof result && result[i] == 0xA5; i++)
        ;
    CHECK(i == sizeof result);
    CHECK(memcmp(work, in.first.bytes, 51) == 0);
    CHECK(memcmp(work + 6147, in.second.bytes, 75) == 0);
    for (i = 51; i < sizeof work && (work[i] == 0 || (i >= 6147 && i < 6147 + 75)); i++)
        ;
    CHECK(i == sizeof work);
}

/* The empty picture subsumes every other, by the same eight bytes; every picture subsumes itself and what nothing is
 * an instance of. */
static void test_every(void)
{
    static const uint8_t map[] = {0x41, 0, 2, 0, 0, 0x2F, 0, 0};
    static struct inputs other;
    unsigned int i;

    for (i = 0; i < VERDICTS; i++) {
        row_list_picture(&in.first, &verdicts[i].first);
        rows_picture(&in.second, ROWS(ROOT(0, 0)));
        subsumes_check(&in, word_yes(1), i);
        CHECK(memcmp(in.evidence.bytes, map, sizeof map) == 0);

        in.second = in.first;
        CHECK(zuvaropy_outcome(subsumes_any(&in, i)) == ZUVAROPY_OUTCOME_YES);

        other.second = in.first;
        rows_picture(&other.first, ROWS(ROOT_NONE));
        CHECK(zuvaropy_outcome(subsumes_any(&other, i)) == ZUVAROPY_OUTCOME_YES);
    }
}

int main(void)
{
    test_verdicts();
    test_bytes();
    test_every();
    return check_summary("subsumes");
}

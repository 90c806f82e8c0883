/*
 * Normal tables byte for byte, each for one rule of merging and tidying.
 */

#include "check.h"
#include "normalize.h"
#include "picture.h"
#include "rows.h"

#define R 8
#define S 9

static struct picture p;
static struct picture table;

static const struct {
    unsigned int rows, normal_rows;
    struct row row[8], normal[8];
} cases[] = {
    /* 0: nothing is said. */
    {1, 1, {ROOT(0, 0)}, {ROOT(0, 0)}},
    /* 1: a name wanted and excluded. */
    {1, 1, {ROOT(NAME(3), NAME(3))}, {ROOT_NONE}},
    /* 2: value restrictions by one role become one. */
    {3, 2, {ROOT(0, 0), ALL(0, R, NAME(3), 0), ALL(0, R, NAME(5), 0)}, {ROOT(0, 0), ALL(0, R, NAME(3) | NAME(5), 0)}},
    /* 3: an existential restriction takes them over. */
    {3,
     3,
     {ROOT(0, 0), ALL(0, R, NAME(3), 0), SOME(0, R, NAME(5), 0)},
     {ROOT(0, 0), ALL(0, R, NAME(3), 0), SOME(0, R, NAME(3) | NAME(5), 0)}},
    /* 4: a value restriction that says nothing is dropped. */
    {2, 1, {ROOT(0, 0), ALL(0, R, 0, 0)}, {ROOT(0, 0)}},
    /* 5, 6: an impossible one stays, but makes an existential one impossible. */
    {2, 2, {ROOT(0, 0), ALL_NONE(0, R)}, {ROOT(0, 0), ALL_NONE(0, R)}},
    {3, 1, {ROOT(0, 0), ALL_NONE(0, R), SOME(0, R, 0, 0)}, {ROOT_NONE}},
    /* 7, 8: a normal table has a normal table of its own, which can be longer. */
    {4,
     5,
     {ROOT(0, 0), ALL(0, R, 0, 0), SOME(1, S, NAME(1), 0), SOME(0, R, NAME(2), 0)},
     {ROOT(0, 0), ALL(0, R, 0, 0), SOME(1, S, NAME(1), 0), SOME(0, R, NAME(2), 0), SOME(3, S, NAME(1), 0)}},
    {5,
     6,
     {ROOT(0, 0), ALL(0, R, 0, 0), SOME(1, S, NAME(1), 0), SOME(0, R, NAME(2), 0), SOME(3, S, NAME(1), 0)},
     {ROOT(0, 0), ALL(0, R, 0, 0), SOME(1, S, NAME(1), 0), SOME(0, R, NAME(2), 0), SOME(3, S, NAME(1), 0),
      SOME(3, S, NAME(1), 0)}},
    /* 9: all before some, whatever their order in the picture. */
    {3,
     3,
     {ROOT(0, 0), SOME(0, R, NAME(5), 0), ALL(0, R, NAME(3), 0)},
     {ROOT(0, 0), ALL(0, R, NAME(3), 0), SOME(0, R, NAME(3) | NAME(5), 0)}},
    /* 10: roles rise, and one role's restrictions say nothing of another's. */
    {7,
     7,
     {ROOT(0, 0), SOME(0, 31, NAME(1), 0), ALL(0, 31, NAME(2), 0), SOME(0, S, NAME(3), 0), ALL(0, R, NAME(4), 0),
      SOME(0, 0, NAME(5), 0), ALL(0, 1, NAME(6), 0)},
     {ROOT(0, 0), SOME(0, 0, NAME(5), 0), ALL(0, 1, NAME(6), 0), ALL(0, R, NAME(4), 0), SOME(0, S, NAME(3), 0),
      ALL(0, 31, NAME(2), 0), SOME(0, 31, NAME(1) | NAME(2), 0)}},
    /* 11: existential restrictions in the picture's order; equal ones stay, and so does one that says little. */
    {5,
     5,
     {ROOT(0, 0), SOME(0, R, NAME(5), 0), SOME(0, R, NAME(3), 0), SOME(0, R, 0, 0), SOME(0, R, NAME(5), 0)},
     {ROOT(0, 0), SOME(0, R, NAME(5), 0), SOME(0, R, NAME(3), 0), SOME(0, R, 0, 0), SOME(0, R, NAME(5), 0)}},
    /* 12: those of several rows that become one, too. */
    {6,
     5,
     {ROOT(0, 0), ALL(0, R, 0, 0), ALL(0, R, 0, 0), SOME(2, S, NAME(7), 0), SOME(1, S, NAME(6), 0),
      SOME(2, S, NAME(5), 0)},
     {ROOT(0, 0), ALL(0, R, 0, 0), SOME(1, S, NAME(7), 0), SOME(1, S, NAME(6), 0), SOME(1, S, NAME(5), 0)}},
    /* 13: value restrictions are passed on two levels down, from every row of the set. */
    {7,
     8,
     {ROOT(0, 0), ALL(0, R, 0, 0), SOME(1, S, NAME(1), 0), ALL(0, R, 0, 0), ALL(3, S, NAME(2), 0), SOME(0, R, 0, 0),
      SOME(5, S, NAME(3), 0)},
     {ROOT(0, 0), ALL(0, R, 0, 0), ALL(1, S, NAME(2), 0), SOME(1, S, NAME(1) | NAME(2), 0), SOME(0, R, 0, 0),
      ALL(4, S, NAME(2), 0), SOME(4, S, NAME(1) | NAME(2), 0), SOME(4, S, NAME(2) | NAME(3), 0)}},
    /* 14, 15: rows that contradict each other, as value restrictions and with an existential one. */
    {3, 2, {ROOT(0, 0), ALL(0, R, NAME(3), 0), ALL(0, R, 0, NAME(3))}, {ROOT(0, 0), ALL_NONE(0, R)}},
    {3, 1, {ROOT(0, 0), ALL(0, R, NAME(3), 0), SOME(0, R, 0, NAME(3))}, {ROOT_NONE}},
    /* 16: an impossible existential restriction makes everything above it impossible ... */
    {5,
     1,
     {ROOT(NAME(1), 0), SOME(0, R, NAME(2), 0), SOME(1, S, NAME(3), 0), SOME_NONE(2, R), ALL(0, S, NAME(4), 0)},
     {ROOT_NONE}},
    /* 17, 18: ... up to a value restriction, which bears it. */
    {4,
     3,
     {ROOT(0, 0), SOME(0, S, 0, 0), ALL(1, R, NAME(3), 0), SOME_NONE(2, S)},
     {ROOT(0, 0), SOME(0, S, 0, 0), ALL_NONE(1, R)}},
    {3,
     3,
     {ROOT(NAME(1), 0), SOME(0, R, 0, 0), ALL_NONE(1, S)},
     {ROOT(NAME(1), 0), SOME(0, R, 0, 0), ALL_NONE(1, S)}},
    /* 19, 20: an impossible row has no names and no successors. */
    {4,
     3,
     {ROOT(0, 0), {0, ZUVAROPY_KIND_FORALL, R, 1, NAME(3), NAME(4)}, SOME(1, S, NAME(1), 0), ALL(0, S, NAME(5), 0)},
     {ROOT(0, 0), ALL_NONE(0, R), ALL(0, S, NAME(5), 0)}},
    {3, 1, {{0, ZUVAROPY_KIND_ROOT, 0, 1, NAME(3), 0}, ALL(0, R, NAME(1), 0), SOME(1, S, 0, 0)}, {ROOT_NONE}},
    /* 21: value restrictions are dropped from the leaves up. */
    {4, 1, {ROOT(0, 0), ALL(0, R, 0, 0), ALL(1, S, 0, 0), ALL(2, R, 0, 0)}, {ROOT(0, 0)}},
    /* 22: what is left below a value restriction keeps it, and so does an excluded name. */
    {6,
     6,
     {ROOT(0, 0), ALL(0, 1, 0, 0), SOME(1, 2, 0, 0), ALL(0, 3, 0, NAME(0)), ALL(0, 4, 0, 0), ALL_NONE(4, 5)},
     {ROOT(0, 0), ALL(0, 1, 0, 0), SOME(1, 2, 0, 0), ALL(0, 3, 0, NAME(0)), ALL(0, 4, 0, 0), ALL_NONE(4, 5)}},
    /* 23: parents are numbered in the table that is written. */
    {7,
     4,
     {ROOT(0, 0), ALL(0, 1, 0, 0), ALL(1, 1, 0, 0), SOME(0, 2, 0, 0), ALL(3, 1, 0, 0), SOME(3, 2, 0, 0),
      SOME(5, 3, NAME(1), 0)},
     {ROOT(0, 0), SOME(0, 2, 0, 0), SOME(1, 2, 0, 0), SOME(2, 3, NAME(1), 0)}},
    /* 24: the highest and the lowest names, of both sets. */
    {4,
     3,
     {ROOT(NAME(63), NAME(0)), ALL(0, 31, NAME(63) | NAME(31), 0), ALL(0, 31, NAME(0), NAME(62)),
      SOME(0, 31, NAME(32), NAME(1))},
     {ROOT(NAME(63), NAME(0)), ALL(0, 31, NAME(63) | NAME(31) | NAME(0), NAME(62)),
      SOME(0, 31, NAME(63) | NAME(32) | NAME(31) | NAME(0), NAME(62) | NAME(1))}},
};

static void test_cases(void)
{
    unsigned int i;

    for (i = 0; i < sizeof cases / sizeof cases[0]; i++) {
        rows_picture(&p, cases[i].row, cases[i].rows);
        rows_picture(&table, cases[i].normal, cases[i].normal_rows);
        normalize_check_fills(&p, word_length(cases[i].normal_rows), table.bytes, i);
    }
}

int main(void)
{
    test_cases();
    return check_summary("normalize");
}

/*
 * Maps by hand: those that are taken, and those that each of the questions 17
 * to 20 refuses.
 */

#include "check.h"
#include "rows.h"
#include "verify.h"

#include <string.h>

#define R 8
#define S 9

static struct inputs in;

/* What each question refuses; 0: taken. The images are those of the second normal table's rows. */
static const struct {
    struct row_list first, second;
    struct {
        const unsigned int *of;
        size_t count;
    } images;
    unsigned int question;
} maps[] = {
    /* 0 to 3: two rows may have one image, whose names are those of both. */
    {{ROWS(ROOT(0, 0), SOME(0, R, NAME(3) | NAME(5), 0))},
     {ROWS(ROOT(0, 0), SOME(0, R, NAME(3), 0), SOME(0, R, NAME(5), 0))},
     {IMAGES(0, 1, 1)},
     0},
    {{ROWS(ROOT(0, 0), SOME(0, R, NAME(3), 0), SOME(0, R, NAME(5), 0))},
     {ROWS(ROOT(0, 0), SOME(0, R, NAME(3) | NAME(5), 0))},
     {IMAGES(0, 1)},
     19},
    {{ROWS(ROOT(0, 0), SOME(0, R, NAME(3), 0), SOME(0, R, NAME(5), 0))},
     {ROWS(ROOT(0, 0), SOME(0, R, NAME(3) | NAME(5), 0))},
     {IMAGES(0, 2)},
     19},
    {{ROWS(ROOT(0, 0), SOME(0, R, NAME(3), 0), SOME(0, R, NAME(5), 0))},
     {ROWS(ROOT(0, 0), SOME(0, R, NAME(3) | NAME(5), 0))},
     {IMAGES(0, 0)},
     19},
    /* 4 to 7: an impossible value restriction takes any other, but no existential one. */
    {{ROWS(ROOT(0, 0), ALL_NONE(0, R))}, {ROWS(ROOT(0, 0), ALL(0, R, NAME(5), 0))}, {IMAGES(0, 1)}, 0},
    {{ROWS(ROOT(0, 0), ALL_NONE(0, R))}, {ROWS(ROOT(0, 0), SOME(0, R, 0, 0))}, {IMAGES(0, 1)}, 20},
    {{ROWS(ROOT(0, 0), ALL_NONE(0, R))}, {ROWS(ROOT(0, 0), SOME(0, R, 0, 0))}, {IMAGES(0, 0)}, 20},
    {{ROWS(ROOT(0, 0), ALL(0, R, NAME(5), 0))}, {ROWS(ROOT(0, 0), ALL_NONE(0, R))}, {IMAGES(0, 1)}, 19},
    /* 8 to 11: all below it goes to it too, and nowhere else. */
    {{ROWS(ROOT(0, 0), ALL_NONE(0, R), ALL_NONE(0, S))},
     {ROWS(ROOT(0, 0), ALL(0, R, 0, 0), SOME(1, S, NAME(1), NAME(2)), ALL_NONE(2, R))},
     {IMAGES(0, 1, 1, 1)},
     0},
    {{ROWS(ROOT(0, 0), ALL_NONE(0, R), ALL_NONE(0, S))},
     {ROWS(ROOT(0, 0), ALL(0, R, 0, 0), SOME(1, S, NAME(1), NAME(2)), ALL_NONE(2, R))},
     {IMAGES(0, 1, 2, 2)},
     20},
    {{ROWS(ROOT(0, 0), ALL_NONE(0, R), ALL_NONE(0, S))},
     {ROWS(ROOT(0, 0), ALL(0, R, 0, 0), SOME(1, S, NAME(1), NAME(2)), ALL_NONE(2, R))},
     {IMAGES(0, 1, 1, 2)},
     20},
    {{ROWS(ROOT(0, 0), ALL_NONE(0, R), ALL_NONE(0, S))},
     {ROWS(ROOT(0, 0), ALL(0, R, 0, 0), SOME(1, S, 0, 0))},
     {IMAGES(0, 1, 0)},
     20},
    /* 12 to 15: an impossible root takes everything. */
    {{ROWS(ROOT(NAME(3), NAME(3)))}, {ROWS(ROOT(NAME(1), NAME(2)), SOME(0, R, NAME(3), 0))}, {IMAGES(0, 0)}, 0},
    {{ROWS(ROOT(0, 0), ALL_NONE(0, R), SOME(0, R, 0, 0))},
     {ROWS(ROOT(0, 0), ALL(0, R, 0, 0), SOME(1, S, 0, 0), ALL_NONE(0, 31))},
     {IMAGES(0, 0, 0, 0)},
     0},
    {{ROWS(ROOT_NONE)}, {ROWS(ROOT_NONE)}, {IMAGES(0)}, 0},
    {{ROWS(ROOT(NAME(1), 0))}, {ROWS(ROOT_NONE)}, {IMAGES(0)}, 19},
    /* 16 to 23: names. The image may have more; what it does not mention is neither wanted nor excluded. */
    {{ROWS(ROOT(NAME(0) | NAME(1) | NAME(63), NAME(2) | NAME(62)))},
     {ROWS(ROOT(NAME(0) | NAME(63), NAME(62)))},
     {IMAGES(0)},
     0},
    {{ROWS(ROOT(NAME(0), 0))}, {ROWS(ROOT(NAME(63), 0))}, {IMAGES(0)}, 19},
    {{ROWS(ROOT(NAME(63), 0))}, {ROWS(ROOT(NAME(0), 0))}, {IMAGES(0)}, 19},
    {{ROWS(ROOT(0, NAME(0)))}, {ROWS(ROOT(0, NAME(63)))}, {IMAGES(0)}, 19},
    {{ROWS(ROOT(0, NAME(63)))}, {ROWS(ROOT(0, NAME(0)))}, {IMAGES(0)}, 19},
    {{ROWS(ROOT(0, 0))}, {ROWS(ROOT(0, NAME(7)))}, {IMAGES(0)}, 19},
    {{ROWS(ROOT(0, NAME(7)))}, {ROWS(ROOT(NAME(7), 0))}, {IMAGES(0)}, 19},
    {{ROWS(ROOT(NAME(7), 0))}, {ROWS(ROOT(0, NAME(7)))}, {IMAGES(0)}, 19},
    /* 24 to 28: images that are no rows of the first. */
    {{ROWS(ROOT(0, 0))}, {ROWS(ROOT(0, 0))}, {IMAGES(1)}, 17},
    {{ROWS(ROOT(0, 0))}, {ROWS(ROOT(0, 0))}, {IMAGES(65535)}, 17},
    {{ROWS(ROOT(0, 0))}, {ROWS(ROOT(0, 0))}, {IMAGES(256)}, 17},
    {{ROWS(ROOT(0, 0), SOME(0, R, 0, 0))}, {ROWS(ROOT(0, 0), SOME(0, R, 0, 0))}, {IMAGES(0, 2)}, 17},
    {{ROWS(ROOT(0, 0), SOME(0, R, 0, 0))}, {ROWS(ROOT(0, 0), SOME(0, R, 0, 0))}, {IMAGES(0, 257)}, 17},
    /* 29, 30: the rows are those of the normal table. */
    {{ROWS(ROOT(0, 0), ALL(0, R, NAME(3), 0), ALL(0, R, NAME(5), 0))}, {ROWS(ROOT(0, 0))}, {IMAGES(2)}, 17},
    {{ROWS(ROOT(0, 0), ALL(0, R, NAME(3), 0), ALL(0, R, NAME(5), 0))},
     {ROWS(ROOT(0, 0), ALL(0, R, NAME(5), 0), ALL(0, R, NAME(3), 0))},
     {IMAGES(0, 1)},
     0},
    /* 31 to 33: row 0 goes to row 0, even where another would do. */
    {{ROWS(ROOT(0, 0), SOME(0, R, 0, 0))}, {ROWS(ROOT(0, 0))}, {IMAGES(1)}, 18},
    {{ROWS(ROOT(0, 0), SOME(0, R, NAME(3), 0))}, {ROWS(ROOT(NAME(3), 0))}, {IMAGES(1)}, 18},
    {{ROWS(ROOT(0, 0), ALL_NONE(0, R))}, {ROWS(ROOT(NAME(3), 0))}, {IMAGES(1)}, 18},
    /* 34 to 41: edges of another role, another kind or from another row. */
    {{ROWS(ROOT(0, 0), SOME(0, R, 0, 0))}, {ROWS(ROOT(0, 0), SOME(0, S, 0, 0))}, {IMAGES(0, 1)}, 20},
    {{ROWS(ROOT(0, 0), SOME(0, 0, 0, 0))}, {ROWS(ROOT(0, 0), SOME(0, 31, 0, 0))}, {IMAGES(0, 1)}, 20},
    {{ROWS(ROOT(0, 0), SOME(0, R, NAME(3), 0))}, {ROWS(ROOT(0, 0), ALL(0, R, NAME(3), 0))}, {IMAGES(0, 1)}, 20},
    {{ROWS(ROOT(0, 0), ALL(0, R, NAME(3), 0))}, {ROWS(ROOT(0, 0), SOME(0, R, NAME(3), 0))}, {IMAGES(0, 1)}, 20},
    {{ROWS(ROOT(0, 0), SOME(0, R, 0, 0), SOME(1, R, 0, 0))}, {ROWS(ROOT(0, 0), SOME(0, R, 0, 0))}, {IMAGES(0, 2)}, 20},
    {{ROWS(ROOT(0, 0), SOME(0, R, 0, 0), SOME(1, R, 0, 0))},
     {ROWS(ROOT(0, 0), SOME(0, R, 0, 0), SOME(1, R, 0, 0))},
     {IMAGES(0, 1, 1)},
     20},
    {{ROWS(ROOT(0, 0), SOME(0, R, 0, 0), SOME(1, S, 0, 0), SOME(0, R, 0, 0))},
     {ROWS(ROOT(0, 0), SOME(0, R, 0, 0), SOME(1, S, 0, 0))},
     {IMAGES(0, 3, 2)},
     20},
    /* Row 0 has parent, role and kind 0, but hangs from nothing. */
    {{ROWS(ROOT(0, 0))}, {ROWS(ROOT(0, 0), SOME(0, 0, 0, 0))}, {IMAGES(0, 0)}, 20},
    /* 42 to 44: several rows would do, and each is taken; so are two trees sent into one. */
    {{ROWS(ROOT(0, 0), SOME(0, R, NAME(1), 0), SOME(0, R, NAME(1), 0))},
     {ROWS(ROOT(0, 0), SOME(0, R, NAME(1), 0))},
     {IMAGES(0, 1)},
     0},
    {{ROWS(ROOT(0, 0), SOME(0, R, NAME(1), 0), SOME(0, R, NAME(1), 0))},
     {ROWS(ROOT(0, 0), SOME(0, R, NAME(1), 0))},
     {IMAGES(0, 2)},
     0},
    {{ROWS(ROOT(0, 0), SOME(0, R, 0, 0), SOME(1, S, NAME(1) | NAME(2), 0))},
     {ROWS(ROOT(0, 0), SOME(0, R, 0, 0), SOME(1, S, NAME(1), 0), SOME(0, R, 0, 0), SOME(3, S, NAME(2), 0))},
     {IMAGES(0, 1, 2, 1, 2)},
     0},
    /* 45, 46: what a value restriction says stands below the existential one too. */
    {{ROWS(ROOT(0, 0), ALL(0, R, NAME(3), 0), SOME(0, R, NAME(5), 0))},
     {ROWS(ROOT(0, 0), SOME(0, R, NAME(3) | NAME(5), 0))},
     {IMAGES(0, 2)},
     0},
    {{ROWS(ROOT(0, 0), ALL(0, R, 0, 0), SOME(1, S, NAME(1), 0), SOME(0, R, NAME(2), 0))},
     {ROWS(ROOT(0, 0), SOME(0, R, NAME(2), 0), SOME(1, S, NAME(1), 0))},
     {IMAGES(0, 3, 4)},
     0},
};

static void test_maps(void)
{
    unsigned int i;

    for (i = 0; i < sizeof maps / sizeof maps[0]; i++) {
        row_list_picture(&in.first, &maps[i].first);
        row_list_picture(&in.second, &maps[i].second);
        evidence_map(&in.evidence, maps[i].images.of, maps[i].images.count);
        verify_check(&in, maps[i].question == 0 ? word_map_taken() : word_evidence(maps[i].question), i);
    }
}

/* The empty picture subsumes every other, by a map of eight bytes that is the same for all. */
static void test_top(void)
{
    static const uint8_t map[] = {0x41, 0, 2, 0, 0, 0x2F, 0, 0};
    unsigned int rows, i;

    rows_picture(&in.second, ROWS(ROOT(0, 0)));
    memcpy(in.evidence.bytes, map, sizeof map);
    in.evidence.length = sizeof map;
    for (i = 0; i < sizeof maps / sizeof maps[0]; i++) {
        row_list_picture(&in.first, &maps[i].first);
        verify_check(&in, word_map_taken(), i);
    }
    for (rows = 1; rows <= ZUVAROPY_MAX_ROWS; rows += 1 + rows / 3) {
        picture_fan(&in.first, rows);
        picture_end(&in.first);
        verify_check(&in, word_map_taken(), rows);
    }
    /* So does a picture whose normal table is empty. */
    picture_mixed(&in.first, 16);
    rows_picture(&in.second, ROWS(ROOT(0, 0), ALL(0, R, 0, 0), ALL(1, S, 0, 0)));
    verify_check(&in, word_map_taken(), 0);
}

/* A picture subsumes itself, by the map that sends each row to itself. */
static void test_same(void)
{
    unsigned int images[ZUVAROPY_MAX_ROWS];
    unsigned int rows;

    for (rows = 0; rows < ZUVAROPY_MAX_ROWS; rows++)
        images[rows] = rows;
    for (rows = 1; rows <= ZUVAROPY_MAX_ROWS; rows++) {
        picture_fan(&in.first, rows);
        picture_end(&in.first);
        in.second = in.first;
        evidence_map(&in.evidence, images, rows);
        CHECK_WORD(verify_any(&in, rows), word_map_taken(), rows);
    }
    /* Its normal table may have more rows than it: all r(some s{1}), some r{2}. */
    rows_picture(&in.first, ROWS(ROOT(0, 0), ALL(0, R, 0, 0), SOME(1, S, NAME(1), 0), SOME(0, R, NAME(2), 0)));
    in.second = in.first;
    for (rows = 1; rows <= 8; rows++) {
        evidence_map(&in.evidence, images, rows);
        verify_check(&in, rows == 5 ? word_map_taken() : word_evidence(16), rows);
    }
}

int main(void)
{
    test_maps();
    test_top();
    test_same();
    return check_summary("verify, maps");
}

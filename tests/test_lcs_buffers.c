/*
 * Buffers of every length and what they hold afterwards, pictures that share
 * their bytes, and no buffer at all.
 */

#include "area.h"
#include "calls.h"
#include "check.h"
#include "lcs.h"
#include "normalize.h"
#include "rows.h"

#include <string.h>

#define R 8
#define WORK ZUVAROPY_WORK_BYTES
#define RESULT ZUVAROPY_MAX_PICTURE_BYTES

static struct pair pair;

/* Each word with each fill, in buffers that are just long enough and longer. */
static void test_long(void)
{
    unsigned int i, fill;
    size_t more, other;
    uint64_t wanted;

    for (i = 0; i < LCS_WORDS; i++) {
        wanted = lcs_make(&pair, i);
        for (fill = 0; fill < sizeof normalize_fills; fill++)
            for (more = 0; more <= 100; more += 1 + 2 * more)
                for (other = 0; other <= 100; other += 1 + 2 * other)
                    CHECK_WORD(lcs_room(&pair, WORK + more, RESULT + other, normalize_fills[fill], i), wanted, i);
        CHECK_WORD(lcs_any(&pair, i), wanted, i);
    }
}

/* Either too short by one byte or more: refused, whatever the pictures, and nothing written in either. */
static void test_short(void)
{
    static const size_t works[] = {WORK, WORK + 1, WORK - 1, ZUVAROPY_SECOND_TABLE_AT, 1, 0};
    static const size_t results[] = {RESULT, RESULT + 1, RESULT - 1, ZUVAROPY_PICTURE_BYTES(2), 1, 0};
    unsigned int i, j, k;

    for (i = 0; i < LCS_WORDS; i++) {
        lcs_make(&pair, i);
        for (j = 0; j < sizeof works / sizeof works[0]; j++)
            for (k = 0; k < sizeof results / sizeof results[0]; k++)
                if (works[j] < WORK || results[k] < RESULT)
                    CHECK_WORD(lcs_room(&pair, works[j], results[k], 0xA5, i), word_short(), 16 * j + k);
    }
}

/* The same by every length, for a common picture and for 15. */
static void test_lengths(void)
{
    unsigned int i;
    size_t room;

    for (i = PICTURE_WORDS; i < LCS_WORDS; i++) {
        lcs_make(&pair, i);
        for (room = 0; room < WORK; room++)
            CHECK_WORD(lcs_room(&pair, room, RESULT, normalize_fills[room % 3], room), word_short(), room);
        for (room = 0; room < RESULT; room++)
            CHECK_WORD(lcs_room(&pair, WORK, room, normalize_fills[room % 3], room), word_short(), room);
    }
}

/* Whatever the tables' lengths, whether 15 refuses or not. */
static void test_halves(void)
{
    static uint8_t work[WORK], result[RESULT];
    unsigned int rows, met[2] = {0};
    uint64_t word;

    for (rows = 1; rows <= ZUVAROPY_MAX_ROWS; rows += 1 + rows / 8) {
        picture_fan(&pair.first, rows);
        picture_end(&pair.first);
        picture_fan(&pair.second, rows < 16 ? 17 : 1 + (255 + rows) / rows);
        picture_label(&pair.second, NAME(rows % 64), 0, 0);
        picture_end(&pair.second);
        memset(work, 0xA5, sizeof work);
        memset(result, 0xA5, sizeof result);
        word = call_lcs(pair.first.bytes, pair.first.length, pair.second.bytes, pair.second.length, work,
                        sizeof work, result, sizeof result);
        if (zuvaropy_outcome(word) == ZUVAROPY_OUTCOME_REFUSAL) {
            CHECK_WORD(word, word_second(ZUVAROPY_QUESTION_COMMON, 0), rows);
            CHECK(area_is_filled(result, sizeof result, 0xA5));
        }
        met[zuvaropy_outcome(word)]++;
        normalize_check_half(work, &pair.first);
        normalize_check_half(work + 6147, &pair.second);
    }
    CHECK(met[ZUVAROPY_OUTCOME_REFUSAL] >= 10);
    CHECK(met[ZUVAROPY_OUTCOME_YES] >= 8);
}

/* The pictures may be the same bytes, and parts of each other. */
static void test_shared(void)
{
    static uint8_t work[WORK], result[RESULT];
    const uint8_t *file = pair.first.bytes;

    rows_picture(&pair.first, ROWS(ROOT(0, 0), SOME(0, R, NAME(3), 0)));
    CHECK_WORD(call_lcs(file, pair.first.length, file, pair.first.length, work, sizeof work, result, sizeof result),
               word_length(2), 0);
    CHECK(memcmp(result, file, pair.first.length) == 0);
    normalize_check_half(work, &pair.first);
    normalize_check_half(work + 6147, &pair.first);
    CHECK_WORD(call_lcs(file, pair.first.length, file + ZUVAROPY_ROW_BYTES, pair.first.length - ZUVAROPY_ROW_BYTES,
                        work, sizeof work, result, sizeof result),
               word_second(9, 0), 1);
    CHECK_WORD(call_lcs(file + ZUVAROPY_ROW_BYTES, pair.first.length - ZUVAROPY_ROW_BYTES, file, pair.first.length,
                        work, sizeof work, result, sizeof result),
               word_refusal(9, 0), 2);
}

static void test_nothing(void)
{
    static uint8_t work[WORK], result[RESULT];
    const uint8_t *a = pair.first.bytes, *b = pair.second.bytes;

    lcs_make(&pair, LCS_WORDS - 1);
    CHECK_WORD(call_lcs(NULL, 0, NULL, 0, NULL, 0, NULL, 0), word_short(), 0);
    CHECK_WORD(call_lcs(a, pair.first.length, b, pair.second.length, NULL, 0, result, sizeof result), word_short(),
               1);
    CHECK_WORD(call_lcs(a, pair.first.length, b, pair.second.length, work, sizeof work, NULL, 0), word_short(), 2);
    CHECK_WORD(call_lcs(NULL, 0, NULL, 0, work, sizeof work, result, sizeof result), word_refusal(2, 0), 3);
    CHECK_WORD(call_lcs(NULL, 0, b, pair.second.length, work, sizeof work, result, sizeof result),
               word_refusal(2, 0), 4);
    CHECK_WORD(call_lcs(a, pair.first.length, NULL, 0, work, sizeof work, result, sizeof result),
               word_second(2, 0), 5);
}

int main(void)
{
    test_long();
    test_short();
    test_lengths();
    test_halves();
    test_shared();
    test_nothing();
    return check_summary("lcs, buffers");
}

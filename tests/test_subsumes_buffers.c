/*
 * Buffers of every length and what they hold afterwards, pictures that share
 * their bytes, and no buffer at all.
 */

#include "calls.h"
#include "check.h"
#include "normalize.h"
#include "rows.h"
#include "subsumes.h"
#include "verify.h"

#include <string.h>

#define R 8
#define WORK ZUVAROPY_WORK_BYTES
#define RESULT ZUVAROPY_MAX_EVIDENCE_BYTES

static struct inputs in;

/* The words of this call, by a number: the refusals of pictures, yes and no. */
#define VERDICT_WORDS (PICTURE_WORDS + 2)

static uint64_t make_word(unsigned int n)
{
    if (n < PICTURE_WORDS) {
        verify_make(&in, word_number(n));
        return word_number(n);
    }
    verify_make(&in, n == PICTURE_WORDS ? word_map_taken() : word_refutation_taken());
    return n == PICTURE_WORDS ? word_yes(2) : word_no();
}

/* Each word with each fill, in buffers that are just long enough and longer. */
static void test_long(void)
{
    unsigned int i, fill;
    size_t more, other;
    uint64_t wanted;

    for (i = 0; i < VERDICT_WORDS; i++) {
        wanted = make_word(i);
        for (fill = 0; fill < sizeof normalize_fills; fill++)
            for (more = 0; more <= 100; more += 1 + 2 * more)
                for (other = 0; other <= 100; other += 1 + 2 * other)
                    CHECK_WORD(word_verdict(subsumes_room(&in, WORK + more, RESULT + other, normalize_fills[fill], i)),
                               wanted, i);
        CHECK_WORD(word_verdict(subsumes_any(&in, i)), wanted, i);
    }
}

/* Either too short by one byte or more: refused, whatever the pictures, and nothing written in either. */
static void test_short(void)
{
    static const size_t works[] = {WORK, WORK + 1, WORK - 1, ZUVAROPY_SECOND_TABLE_AT, 1, 0};
    static const size_t results[] = {RESULT, RESULT + 1, RESULT - 1, ZUVAROPY_MAP_BYTES(2), 1, 0};
    unsigned int i, j, k;

    for (i = 0; i < VERDICT_WORDS; i++) {
        make_word(i);
        for (j = 0; j < sizeof works / sizeof works[0]; j++)
            for (k = 0; k < sizeof results / sizeof results[0]; k++)
                if (works[j] < WORK || results[k] < RESULT)
                    CHECK_WORD(subsumes_room(&in, works[j], results[k], 0xA5, i), word_short(), 16 * j + k);
    }
}

/* The same by every length, for both verdicts. */
static void test_lengths(void)
{
    unsigned int i;
    size_t room;

    for (i = PICTURE_WORDS; i < VERDICT_WORDS; i++) {
        make_word(i);
        for (room = 0; room < WORK; room++)
            CHECK_WORD(subsumes_room(&in, room, RESULT, normalize_fills[room % 3], room), word_short(), room);
        for (room = 0; room < RESULT; room++)
            CHECK_WORD(subsumes_room(&in, WORK, room, normalize_fills[room % 3], room), word_short(), room);
    }
}

/* Whatever the verdict and the tables' lengths. */
static void test_halves(void)
{
    static uint8_t work[WORK], result[RESULT];
    unsigned int rows;

    for (rows = 1; rows <= ZUVAROPY_MAX_ROWS; rows += 1 + rows / 8) {
        picture_mixed(&in.first, rows);
        picture_fan(&in.second, ZUVAROPY_MAX_ROWS + 1 - rows);
        picture_end(&in.second);
        memset(work, 0xA5, sizeof work);
        CHECK(zuvaropy_outcome(call_subsumes(in.first.bytes, in.first.length, in.second.bytes, in.second.length,
                                             work, sizeof work, result, sizeof result)) !=
              ZUVAROPY_OUTCOME_REFUSAL);
        normalize_check_half(work, &in.first);
        normalize_check_half(work + 6147, &in.second);
    }
}

/* The pictures may be the same bytes, and parts of each other. */
static void test_shared(void)
{
    static uint8_t work[WORK], result[RESULT];
    const uint8_t *file = in.first.bytes;

    rows_picture(&in.first, ROWS(ROOT(0, 0), SOME(0, R, NAME(3), 0)));
    CHECK_WORD(call_subsumes(file, in.first.length, file, in.first.length, work, sizeof work, result,
                             sizeof result),
               word_yes(2), 0);
    normalize_check_half(work, &in.first);
    normalize_check_half(work + 6147, &in.first);
    CHECK_WORD(call_subsumes(file, in.first.length, file + ZUVAROPY_ROW_BYTES, in.first.length - ZUVAROPY_ROW_BYTES,
                             work, sizeof work, result, sizeof result),
               word_second(9, 0), 1);
    CHECK_WORD(call_subsumes(file + ZUVAROPY_ROW_BYTES, in.first.length - ZUVAROPY_ROW_BYTES, file, in.first.length,
                             work, sizeof work, result, sizeof result),
               word_refusal(9, 0), 2);
}

static void test_nothing(void)
{
    static uint8_t work[WORK], result[RESULT];
    const uint8_t *a = in.first.bytes, *b = in.second.bytes;

    make_word(PICTURE_WORDS);
    CHECK_WORD(call_subsumes(NULL, 0, NULL, 0, NULL, 0, NULL, 0), word_short(), 0);
    CHECK_WORD(call_subsumes(a, in.first.length, b, in.second.length, NULL, 0, result, sizeof result), word_short(),
               1);
    CHECK_WORD(call_subsumes(a, in.first.length, b, in.second.length, work, sizeof work, NULL, 0), word_short(), 2);
    CHECK_WORD(call_subsumes(NULL, 0, NULL, 0, work, sizeof work, result, sizeof result), word_refusal(2, 0), 3);
    CHECK_WORD(call_subsumes(NULL, 0, b, in.second.length, work, sizeof work, result, sizeof result),
               word_refusal(2, 0), 4);
    CHECK_WORD(call_subsumes(a, in.first.length, NULL, 0, work, sizeof work, result, sizeof result),
               word_second(2, 0), 5);
}

int main(void)
{
    test_long();
    test_short();
    test_lengths();
    test_halves();
    test_shared();
    test_nothing();
    return check_summary("subsumes, buffers");
}

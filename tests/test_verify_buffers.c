/*
 * Work spaces of every length and what they hold afterwards, inputs that share
 * their bytes, and no buffer at all.
 */

#include "calls.h"
#include "check.h"
#include "normalize.h"
#include "rows.h"
#include "verify.h"

#include <string.h>

#define R 8
#define WORK ZUVAROPY_WORK_BYTES

static struct inputs in;

/* Each word with each fill, in work spaces that are just long enough and longer. */
static void test_long_work(void)
{
    unsigned int i, fill;
    size_t room;

    for (i = 0; i < WORDS; i++) {
        verify_make(&in, word_number(i));
        for (fill = 0; fill < sizeof normalize_fills; fill++)
            for (room = WORK; room <= VERIFY_ROOM; room += 1 + (room - WORK))
                CHECK_WORD(verify_room(&in, room, normalize_fills[fill], i), word_number(i), room);
        CHECK_WORD(verify_any(&in, i), word_number(i), i);
    }
}

/* Too short by one byte or more: refused, whatever the inputs, and nothing written. */
static void test_short_work(void)
{
    unsigned int i;
    size_t room;

    verify_make(&in, word_map_taken());
    for (room = 0; room < WORK; room++)
        CHECK_WORD(verify_room(&in, room, normalize_fills[room % 3], room), word_short(), room);
    for (i = 0; i < WORDS; i++) {
        verify_make(&in, word_number(i));
        for (room = 0; room < WORK; room += 1 + room / 3)
            CHECK_WORD(verify_room(&in, room, 0xA5, room), word_short(), room);
        CHECK_WORD(verify_room(&in, WORK - 1, 0xA5, WORK - 1), word_short(), i);
    }
}

static void check_halves(uint64_t wanted)
{
    static uint8_t work[WORK];

    memset(work, 0xA5, sizeof work);
    CHECK_WORD(call_verify(in.first.bytes, in.first.length, in.second.bytes, in.second.length, in.evidence.bytes,
                           in.evidence.length, work, sizeof work),
               wanted, in.first.length);
    normalize_check_half(work, &in.first);
    normalize_check_half(work + 6147, &in.second);
}

/* Both halves are written whatever becomes of the evidence, and whatever the tables' lengths. */
static void test_halves(void)
{
    unsigned int i, rows;

    for (i = 0; i < WORDS; i++)
        if (word_writes(word_number(i))) {
            verify_make(&in, word_number(i));
            check_halves(word_number(i));
        }
    evidence_clear(&in.evidence);
    for (rows = 1; rows <= ZUVAROPY_MAX_ROWS; rows += 1 + rows / 8) {
        picture_mixed(&in.first, rows);
        picture_fan(&in.second, ZUVAROPY_MAX_ROWS + 1 - rows);
        picture_end(&in.second);
        check_halves(word_evidence(16));
        picture_fan(&in.first, rows);
        picture_end(&in.first);
        check_halves(word_evidence(16));
    }
}

/* Inputs may be the same bytes, and parts of each other. */
static void test_shared(void)
{
    static uint8_t work[WORK];
    const uint8_t *file = in.first.bytes;

    rows_picture(&in.first, ROWS(ROOT(0, 0), SOME(0, R, NAME(3), 0)));
    evidence_map(&in.evidence, IMAGES(0, 1));
    CHECK_WORD(call_verify(file, in.first.length, file, in.first.length, in.evidence.bytes, in.evidence.length,
                           work, sizeof work),
               word_map_taken(), 0);
    normalize_check_half(work, &in.first);
    normalize_check_half(work + 6147, &in.first);
    CHECK_WORD(call_verify(file, in.first.length, file, in.first.length, file, in.first.length, work, sizeof work),
               word_evidence(16), 1);
    CHECK_WORD(call_verify(file, in.first.length, file + ZUVAROPY_ROW_BYTES, in.first.length - ZUVAROPY_ROW_BYTES,
                           file, in.first.length, work, sizeof work),
               word_second(9, 0), 2);
}

static void test_nothing(void)
{
    static uint8_t work[WORK];
    const uint8_t *a, *b;

    verify_make(&in, word_map_taken());
    a = in.first.bytes;
    b = in.second.bytes;
    CHECK_WORD(call_verify(NULL, 0, NULL, 0, NULL, 0, NULL, 0), word_short(), 0);
    CHECK_WORD(call_verify(a, in.first.length, b, in.second.length, in.evidence.bytes, in.evidence.length, NULL, 0),
               word_short(), 1);
    CHECK_WORD(call_verify(NULL, 0, NULL, 0, NULL, 0, work, sizeof work), word_refusal(2, 0), 2);
    CHECK_WORD(call_verify(NULL, 0, b, in.second.length, NULL, 0, work, sizeof work), word_refusal(2, 0), 3);
    CHECK_WORD(call_verify(a, in.first.length, NULL, 0, NULL, 0, work, sizeof work), word_second(2, 0), 4);
    CHECK_WORD(call_verify(a, in.first.length, b, in.second.length, NULL, 0, work, sizeof work), word_evidence(16),
               5);
}

int main(void)
{
    test_long_work();
    test_short_work();
    test_halves();
    test_shared();
    test_nothing();
    return check_summary("verify, buffers");
}

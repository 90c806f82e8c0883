/*
 * What is read and written: buffers that begin right after, or end right
 * before, a page that may not be touched.
 */

#include "area.h"
#include "calls.h"
#include "check.h"
#include "lcs.h"
#include "pages.h"
#include "rows.h"

#include <string.h>

#define WORK ZUVAROPY_WORK_BYTES
#define RESULT ZUVAROPY_MAX_PICTURE_BYTES

static struct pair pair;
static struct pages first, second, work, result;

/* The pictures cannot be written at all, and the buffers not where a refusal
 * leaves them alone. `last`: a bit for each buffer that ends with its page.
 * `wanted`: the word, and in the pair the common picture, from a call on buffers
 * like these that were filled with the same. */
static void check_pages(unsigned int last, size_t work_room, size_t result_room, uint64_t wanted)
{
    const uint8_t *first_at = pages_place(&first, pair.first.bytes, pair.first.length, last & 1);
    const uint8_t *second_at = pages_place(&second, pair.second.bytes, pair.second.length, last & 2);
    uint8_t *work_at = pages_place(&work, NULL, work_room, last & 4);
    uint8_t *result_at = pages_place(&result, NULL, result_room, last & 8);
    const size_t written = word_writes(wanted) ? WORK : 0;

    pages_forbid_writing(&first);
    pages_forbid_writing(&second);
    if (!word_writes(wanted))
        pages_forbid_writing(&work);
    if (zuvaropy_outcome(wanted) == ZUVAROPY_OUTCOME_REFUSAL)
        pages_forbid_writing(&result);
    CHECK_WORD(call_lcs(first_at, pair.first.length, second_at, pair.second.length, work_at, work_room, result_at,
                        result_room),
               wanted, last);
    CHECK(memcmp(result_at, pair.common.bytes, pair.common.length) == 0);
    CHECK(area_is_filled(result_at + pair.common.length, result_room - pair.common.length, PAGES_FILL));
    CHECK(area_is_filled(work_at + written, work_room - written, PAGES_FILL));
}

static void check_bounds(size_t work_room, size_t result_room)
{
    const uint64_t wanted = lcs_room(&pair, work_room, result_room, PAGES_FILL, work_room);
    unsigned int last;

    for (last = 0; last < 16; last++)
        check_pages(last, work_room, result_room, wanted);
}

/* Each word; and each buffer too short, just long enough and longer. */
static void test_bounds(void)
{
    static const int differences[] = {-1, 0, 1};
    unsigned int i, j, k;

    for (i = 0; i < LCS_WORDS; i++) {
        lcs_make(&pair, i);
        for (j = 0; j < 3; j++)
            for (k = 0; k < 3; k++)
                check_bounds((size_t)(WORK + differences[j]), (size_t)(RESULT + differences[k]));
        check_bounds(0, RESULT);
        check_bounds(WORK, 0);
        check_bounds(0, 0);
    }
}

/* The largest tables, and the longest common picture. */
static void test_long_bounds(void)
{
    picture_fan(&pair.first, ZUVAROPY_MAX_ROWS);
    picture_end(&pair.first);
    picture_fan(&pair.second, 2);
    picture_end(&pair.second);
    check_bounds(WORK, RESULT);
    CHECK(pair.common.length == RESULT);
    pair.second = pair.first;
    check_bounds(WORK, RESULT);
    CHECK(pair.common.length == 0);
    rows_picture(&pair.second, ROWS(ROOT_NONE));
    check_bounds(WORK, RESULT);
    CHECK(pair.common.length == RESULT);
}

/* A picture cut off anywhere is refused without a byte read behind it. */
static void test_cuts(void)
{
    lcs_make(&pair, LCS_WORDS - 1);
    while (pair.first.length-- > 0)
        check_bounds(WORK, RESULT);
    lcs_make(&pair, LCS_WORDS - 1);
    while (pair.second.length-- > 0)
        check_bounds(WORK, RESULT);
}

int main(void)
{
    pages_map(&first, sizeof pair.first.bytes);
    pages_map(&second, sizeof pair.second.bytes);
    pages_map(&work, LCS_WORK_ROOM);
    pages_map(&result, LCS_RESULT_ROOM);
    test_bounds();
    test_long_bounds();
    test_cuts();
    return check_summary("lcs, pages");
}

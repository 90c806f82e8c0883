/*
 * What is read and written: buffers that begin right after, or end right
 * before, a page that may not be touched.
 */

#include "area.h"
#include "calls.h"
#include "check.h"
#include "pages.h"
#include "rows.h"
#include "subsumes.h"
#include "verify.h"

#include <string.h>

#define WORK ZUVAROPY_WORK_BYTES
#define RESULT ZUVAROPY_MAX_EVIDENCE_BYTES

static struct inputs in;
static struct pages first, second, work, result;

/* The pictures cannot be written at all, and the buffers not where a refusal
 * leaves them alone. `last`: a bit for each buffer that ends with its page.
 * `verdict`: the word, and in the inputs the evidence, from a call on buffers
 * like these that were filled with the same. */
static void check_pages(unsigned int last, size_t work_room, size_t result_room, uint64_t verdict)
{
    const uint8_t *first_at = pages_place(&first, in.first.bytes, in.first.length, last & 1);
    const uint8_t *second_at = pages_place(&second, in.second.bytes, in.second.length, last & 2);
    uint8_t *work_at = pages_place(&work, NULL, work_room, last & 4);
    uint8_t *result_at = pages_place(&result, NULL, result_room, last & 8);
    const int refused = zuvaropy_outcome(verdict) == ZUVAROPY_OUTCOME_REFUSAL;

    pages_forbid_writing(&first);
    pages_forbid_writing(&second);
    if (refused) {
        pages_forbid_writing(&work);
        pages_forbid_writing(&result);
    }
    CHECK_WORD(call_subsumes(first_at, in.first.length, second_at, in.second.length, work_at, work_room, result_at,
                             result_room),
               verdict, last);
    CHECK(memcmp(result_at, in.evidence.bytes, in.evidence.length) == 0);
    CHECK(area_is_filled(result_at + in.evidence.length, result_room - in.evidence.length, PAGES_FILL));
    if (refused)
        CHECK(area_is_filled(work_at, work_room, PAGES_FILL));
    else
        CHECK(area_is_filled(work_at + WORK, work_room - WORK, PAGES_FILL));
}

static void check_bounds(size_t work_room, size_t result_room)
{
    const uint64_t verdict = subsumes_room(&in, work_room, result_room, PAGES_FILL, work_room);
    unsigned int last;

    for (last = 0; last < 16; last++)
        check_pages(last, work_room, result_room, verdict);
}

/* Each word; and each buffer too short, just long enough and longer. */
static void test_bounds(void)
{
    static const int differences[] = {-1, 0, 1};
    unsigned int i, j, k;

    for (i = 0; i < WORDS; i++)
        if (i < PICTURE_WORDS || zuvaropy_outcome(word_number(i)) != ZUVAROPY_OUTCOME_REFUSAL) {
            verify_make(&in, word_number(i));
            for (j = 0; j < 3; j++)
                for (k = 0; k < 3; k++)
                    check_bounds((size_t)(WORK + differences[j]), (size_t)(RESULT + differences[k]));
            check_bounds(0, RESULT);
            check_bounds(WORK, 0);
            check_bounds(0, 0);
        }
}

/* The largest tables, with the longest map and nearly the longest refutation. */
static void test_long_bounds(void)
{
    picture_fan(&in.first, ZUVAROPY_MAX_ROWS);
    picture_end(&in.first);
    in.second = in.first;
    check_bounds(WORK, RESULT);
    picture_kinds(&in.second, ZUVAROPY_MAX_DEPTH, ~1u);
    picture_label(&in.second, NAME(5), 0, 0);
    picture_end(&in.second);
    check_bounds(WORK, RESULT);
}

/* A picture cut off anywhere is refused without a byte read behind it. */
static void test_cuts(void)
{
    verify_make(&in, word_map_taken());
    while (in.first.length-- > 0)
        check_bounds(WORK, RESULT);
    verify_make(&in, word_refutation_taken());
    while (in.second.length-- > 0)
        check_bounds(WORK, RESULT);
}

int main(void)
{
    pages_map(&first, sizeof in.first.bytes);
    pages_map(&second, sizeof in.second.bytes);
    pages_map(&work, SUBSUMES_WORK_ROOM);
    pages_map(&result, SUBSUMES_RESULT_ROOM);
    test_bounds();
    test_long_bounds();
    test_cuts();
    return check_summary("subsumes, pages");
}

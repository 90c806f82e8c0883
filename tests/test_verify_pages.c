/*
 * What is read and written: buffers that begin right after, or end right
 * before, a page that may not be touched.
 */

#include "calls.h"
#include "check.h"
#include "pages.h"
#include "rows.h"
#include "verify.h"
#include "verify_reference.h"

#include <string.h>

#define WORK ZUVAROPY_WORK_BYTES

static struct inputs in;
static struct pages first, second, evidence, output;

/* The inputs cannot be written at all, and the work space not where a refusal
 * leaves it alone. `last`: a bit for each buffer that ends with its page. */
static void check_pages(unsigned int last, size_t room, const uint8_t *wanted_work, uint64_t wanted)
{
    const uint8_t *first_at = pages_place(&first, in.first.bytes, in.first.length, last & 1);
    const uint8_t *second_at = pages_place(&second, in.second.bytes, in.second.length, last & 2);
    const uint8_t *evidence_at = pages_place(&evidence, in.evidence.bytes, in.evidence.length, last & 4);
    uint8_t *work = pages_place(&output, NULL, room, last & 8);

    pages_forbid_writing(&first);
    pages_forbid_writing(&second);
    pages_forbid_writing(&evidence);
    if (room < WORK || !word_writes(wanted))
        pages_forbid_writing(&output);
    CHECK_WORD(call_verify(first_at, in.first.length, second_at, in.second.length, evidence_at, in.evidence.length,
                           work, room),
               wanted, last);
    CHECK(memcmp(work, wanted_work, room) == 0);
}

static void check_bounds(size_t room)
{
    static uint8_t wanted_work[VERIFY_ROOM];
    unsigned int last;
    uint64_t wanted;

    memset(wanted_work, PAGES_FILL, sizeof wanted_work);
    wanted = reference_verify(in.first.bytes, in.first.length, in.second.bytes, in.second.length, in.evidence.bytes,
                              in.evidence.length, wanted_work, room);
    for (last = 0; last < 16; last++)
        check_pages(last, room, wanted_work, wanted);
}

static void test_bounds(void)
{
    unsigned int i;

    for (i = 0; i < WORDS; i++) {
        verify_make(&in, word_number(i));
        check_bounds(WORK);
        check_bounds(WORK + 1);
        check_bounds(WORK - 1);
        check_bounds(ZUVAROPY_SECOND_TABLE_AT);
        check_bounds(0);
    }
}

/* The longest inputs of each kind. */
static void test_long_bounds(void)
{
    unsigned int images[ZUVAROPY_MAX_ROWS];
    unsigned int i;

    picture_fan(&in.first, ZUVAROPY_MAX_ROWS);
    picture_end(&in.first);
    in.second = in.first;
    for (i = 0; i < ZUVAROPY_MAX_ROWS; i++)
        images[i] = i;
    evidence_map(&in.evidence, images, ZUVAROPY_MAX_ROWS);
    check_bounds(WORK);
    evidence_put(evidence_image(&in.evidence, ZUVAROPY_MAX_ROWS - 1), ZUVAROPY_MAX_ROWS);
    check_bounds(WORK);

    rows_picture(&in.second, ROWS(ROOT(0, 0), ALL_NONE(0, 0)));
    evidence_clear(&in.evidence);
    for (i = 0; i < ZUVAROPY_MAX_INDIVIDUALS; i++)
        evidence_individual(&in.evidence, 0, 0, i);
    evidence_end(&in.evidence);
    check_bounds(WORK);
    evidence_put(evidence_value(&in.evidence, ZUVAROPY_MAX_INDIVIDUALS - 1), ZUVAROPY_MAX_INDIVIDUALS);
    check_bounds(WORK);
    for (i = 0; i < 6; i++)
        evidence_byte(&in.evidence, 0x42);
    check_bounds(WORK);
}

/* An input cut off anywhere is refused without a byte read behind it. */
static void test_cuts(void)
{
    verify_make(&in, word_map_taken());
    while (in.evidence.length-- > 0)
        check_bounds(WORK);
    verify_make(&in, word_refutation_taken());
    while (in.evidence.length-- > 0)
        check_bounds(WORK);
    verify_make(&in, word_refutation_taken());
    while (in.first.length-- > 0)
        check_bounds(WORK);
    verify_make(&in, word_refutation_taken());
    while (in.second.length-- > 0)
        check_bounds(WORK);
}

int main(void)
{
    pages_map(&first, sizeof in.first.bytes);
    pages_map(&second, sizeof in.second.bytes);
    pages_map(&evidence, sizeof in.evidence.bytes);
    pages_map(&output, VERIFY_ROOM);
    test_bounds();
    test_long_bounds();
    test_cuts();
    return check_summary("verify, pages");
}

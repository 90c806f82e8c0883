/*
 * zuvaropy_lcs: every byte is as the reference leaves it. The common picture
 * subsumes both, has the instances of that in the other order, and those of a
 * picture that subsumes the other.
 */

#include "calls.h"
#include "check.h"
#include "lcs.h"
#include "lcs_reference.h"
#include "pair.h"

#include <string.h>

static const struct refusable refusable[] = {
    PAIR_REFUSABLE,
    {ZUVAROPY_QUESTION_COMMON, ZUVAROPY_QUESTION_COMMON, ZUVAROPY_INPUT_SECOND},
    {0, 0, 0},
};
const struct target fuzz_target = {"fuzz_lcs", "ppd", refusable, ZUVAROPY_OUTCOME_YES};

static struct pair pair;

/* Word and result are those of the reference. */
static void check_reference(const struct lent *result, uint64_t word)
{
    static uint8_t work[ZUVAROPY_WORK_BYTES], common[ZUVAROPY_MAX_PICTURE_BYTES];

    CHECK_WORD(word,
               reference_lcs(pair.first.bytes, pair.first.length, pair.second.bytes, pair.second.length, work,
                             sizeof work, common, sizeof common),
               zuvaropy_value(word));
    CHECK(memcmp(result->bytes, common, zuvaropy_value(word)) == 0);
}

/* It has as many rows in the other order, and the same instances. */
static void check_other_order(uint64_t word)
{
    static uint8_t work[ZUVAROPY_WORK_BYTES];
    static struct picture other;

    CHECK_WORD(call_lcs(pair.second.bytes, pair.second.length, pair.first.bytes, pair.first.length, work,
                        sizeof work, other.bytes, ZUVAROPY_MAX_PICTURE_BYTES),
               word, zuvaropy_value(word));
    other.length = zuvaropy_value(word);
    if (other.length > 0)
        lcs_check_equivalent(&pair.common, &other);
}

static void check_common(const struct lent *result, size_t length)
{
    pair.common.length = length;
    memcpy(pair.common.bytes, result->bytes, length);
    CHECK_WORD(call_validate(pair.common.bytes, length), word_rows((unsigned int)(length / ZUVAROPY_ROW_BYTES)),
               length);
    fuzz_met(FEATURE_CHECKED, (unsigned int)lcs_check_subsumes(&pair));
    if (lcs_subsumes(&pair.first, &pair.second) == ZUVAROPY_OUTCOME_YES)
        lcs_check_equivalent(&pair.second, &pair.common);
}

static void check_answer(const struct buffers *lent, uint64_t word)
{
    const size_t written = zuvaropy_value(word);

    pair_check_work(&pair.first, &pair.second, lent);
    CHECK(lent_is_kept(&lent->result, written));
    check_reference(&lent->result, word);
    if (written > 0)
        check_common(&lent->result, written);
    check_other_order(word);
}

int LLVMFuzzerTestOneInput(const uint8_t *data, size_t size)
{
    struct feed feed = {data, size};
    struct buffers lent;
    uint64_t word, wanted;

    pair_lend(&feed, &pair.first, &pair.second, &lent, ZUVAROPY_MAX_PICTURE_BYTES);
    word = call_lcs(lent.first.bytes, lent.first.length, lent.second.bytes, lent.second.length, lent.work.bytes,
                    lent.work.length, lent.result.bytes, lent.result.length);
    fuzz_check_word(word);
    wanted = pair_refusal(&pair.first, &pair.second, &lent, ZUVAROPY_MAX_PICTURE_BYTES);
    if (wanted != 0) {
        CHECK_WORD(word, wanted, size);
        pair_check_kept(&lent);
    } else {
        CHECK(word_writes(word));
        check_answer(&lent, word);
    }
    pair_return(&lent);
    return fuzz_end();
}

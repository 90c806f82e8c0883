/*
 * zuvaropy_verify: the answer is that of the reference, and evidence that is
 * taken says what zuvaropy_subsumes says.
 */

#include "calls.h"
#include "check.h"
#include "lcs.h"
#include "pair.h"
#include "verify_reference.h"

static const struct refusable refusable[] = {
    PAIR_REFUSABLE,
    {ZUVAROPY_QUESTION_FORM, ZUVAROPY_QUESTION_REFUTED, ZUVAROPY_INPUT_EVIDENCE},
    {0, 0, 0},
};
const struct target fuzz_target = {"fuzz_verify", "ppde", refusable, ZUVAROPY_OUTCOME_NO};

static struct inputs in;

static void check_answer(const struct buffers *lent, uint64_t word)
{
    static uint8_t work[ZUVAROPY_WORK_BYTES];

    pair_check_work(&in.first, &in.second, lent);
    CHECK_WORD(word,
               reference_verify(in.first.bytes, in.first.length, in.second.bytes, in.second.length, in.evidence.bytes,
                                in.evidence.length, work, sizeof work),
               in.evidence.length);
    CHECK(zuvaropy_value(word) == 0);
    if (zuvaropy_outcome(word) != ZUVAROPY_OUTCOME_REFUSAL)
        CHECK(lcs_subsumes(&in.first, &in.second) == zuvaropy_outcome(word));
}

int LLVMFuzzerTestOneInput(const uint8_t *data, size_t size)
{
    struct feed feed = {data, size};
    struct buffers lent;
    struct lent evidence;
    uint64_t word, wanted;

    pair_lend(&feed, &in.first, &in.second, &lent, 0);
    feed_evidence(&feed, &in);
    lent_file(&evidence, in.evidence.bytes, in.evidence.length);
    word = call_verify(lent.first.bytes, lent.first.length, lent.second.bytes, lent.second.length, evidence.bytes,
                       evidence.length, lent.work.bytes, lent.work.length);
    fuzz_check_word(word);
    fuzz_met(FEATURE_CHECKED, (unsigned int)(in.evidence.length / ZUVAROPY_INDIVIDUAL_BYTES));
    CHECK(lent_is_kept(&evidence, 0));
    wanted = pair_refusal(&in.first, &in.second, &lent, 0);
    if (wanted != 0) {
        CHECK_WORD(word, wanted, size);
        pair_check_kept(&lent);
    } else {
        CHECK(word_writes(word));
        check_answer(&lent, word);
    }
    lent_return(&evidence);
    pair_return(&lent);
    return fuzz_end();
}

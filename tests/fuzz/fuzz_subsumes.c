/*
 * zuvaropy_subsumes: the verdict is that of the reference, a map is the lowest
 * one, and zuvaropy_verify takes the evidence, for this order of the pictures.
 */

#include "calls.h"
#include "check.h"
#include "lcs.h"
#include "pair.h"
#include "subsumes.h"
#include "witness.h"

#include <string.h>

static const struct refusable refusable[] = {PAIR_REFUSABLE, {0, 0, 0}};
const struct target fuzz_target = {"fuzz_subsumes", "ppd", refusable, ZUVAROPY_OUTCOME_NO};

static struct inputs in;

static uint64_t verify(const struct picture *first, const struct picture *second, const struct evidence *evidence)
{
    static uint8_t work[ZUVAROPY_WORK_BYTES];

    return call_verify(first->bytes, first->length, second->bytes, second->length, evidence->bytes,
                       evidence->length, work, sizeof work);
}

/* A row is sent for each row of the second, by the lowest map. */
static void check_map(const struct lent *result, uint64_t word, size_t second_length)
{
    const unsigned int rows = (unsigned int)(second_length / ZUVAROPY_ROW_BYTES);

    CHECK_WORD(word, word_yes(rows), rows);
    CHECK(witness_make(&in));
    CHECK(in.evidence.length == zuvaropy_value(word));
    CHECK(memcmp(in.evidence.bytes, result->bytes, in.evidence.length) == 0);
    CHECK_WORD(verify(&in.first, &in.second, &in.evidence), word_map_taken(), rows);
}

/* Its root is an instance of the first and not of the second; so it is no evidence for the other order. */
static void check_refutation(const struct lent *result, size_t length)
{
    CHECK(length <= ZUVAROPY_MAX_EVIDENCE_BYTES);
    CHECK(length == ZUVAROPY_REFUTATION_BYTES(length / ZUVAROPY_INDIVIDUAL_BYTES));
    CHECK(!witness_make(&in));
    in.evidence.length = length;
    memcpy(in.evidence.bytes, result->bytes, length);
    CHECK_WORD(verify(&in.first, &in.second, &in.evidence), word_refutation_taken(), length);
    CHECK_WORD(verify(&in.second, &in.first, &in.evidence), word_evidence(ZUVAROPY_QUESTION_INSTANCE), length);
    CHECK_WORD(verify_room(&in, ZUVAROPY_WORK_BYTES, 0, length), word_refutation_taken(), length);
}

static size_t table_length(const uint8_t *half)
{
    size_t length = 0;

    while (half[length] == ZUVAROPY_TAG_ROW)
        length += ZUVAROPY_ROW_BYTES;
    return length;
}

static void check_verdict(const struct buffers *lent, uint64_t word)
{
    const size_t written = zuvaropy_value(word);

    pair_check_work(&in.first, &in.second, lent);
    CHECK(written <= lent->result.length && lent_is_kept(&lent->result, written));
    if (zuvaropy_outcome(word) == ZUVAROPY_OUTCOME_YES)
        check_map(&lent->result, word, table_length(lent->work.bytes + ZUVAROPY_SECOND_TABLE_AT));
    else
        check_refutation(&lent->result, written);
    fuzz_met(FEATURE_CHECKED, 4 * lcs_subsumes(&in.second, &in.first) + zuvaropy_outcome(word));
    CHECK(lcs_subsumes(&in.first, &in.first) == ZUVAROPY_OUTCOME_YES);
}

int LLVMFuzzerTestOneInput(const uint8_t *data, size_t size)
{
    struct feed feed = {data, size};
    struct buffers lent;
    uint64_t word, wanted;

    pair_lend(&feed, &in.first, &in.second, &lent, ZUVAROPY_MAX_EVIDENCE_BYTES);
    word = call_subsumes(lent.first.bytes, lent.first.length, lent.second.bytes, lent.second.length,
                         lent.work.bytes, lent.work.length, lent.result.bytes, lent.result.length);
    fuzz_check_word(word);
    wanted = pair_refusal(&in.first, &in.second, &lent, ZUVAROPY_MAX_EVIDENCE_BYTES);
    if (wanted != 0) {
        CHECK_WORD(word, wanted, size);
        pair_check_kept(&lent);
    } else {
        CHECK(zuvaropy_outcome(word) != ZUVAROPY_OUTCOME_REFUSAL);
        check_verdict(&lent, word);
    }
    pair_return(&lent);
    return fuzz_end();
}

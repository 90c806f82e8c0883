#include "pair.h"

#include "calls.h"
#include "check.h"
#include "normalize.h"
#include "verify.h"
#include "verify_reference.h"

void pair_lend(struct feed *feed, struct picture *first, struct picture *second, struct buffers *lent,
               size_t result_needed)
{
    static const struct lent none;

    lent->result = none;
    fuzz_lend(feed, &lent->work, result_needed > 0 ? &lent->result : NULL, result_needed);
    feed_picture(feed, first, NULL);
    feed_picture(feed, second, first);
    lent_file(&lent->first, first->bytes, first->length);
    lent_file(&lent->second, second->bytes, second->length);
    fuzz_definitions(feed, &lent->definitions);
}

/* The refusal of a picture by itself; 0 if there is none. */
static uint64_t refusal_of(const struct picture *p, enum feature rows)
{
    static uint8_t table[ZUVAROPY_MAX_PICTURE_BYTES];
    const uint64_t word = call_normalize(p->bytes, p->length, table, sizeof table);

    fuzz_met(rows, zuvaropy_value(word) / ZUVAROPY_ROW_BYTES);
    return zuvaropy_outcome(word) == ZUVAROPY_OUTCOME_REFUSAL ? word : 0;
}

/* What is not refused so far meets empty evidence, which question 16 refuses. */
static uint64_t refusal_under(const struct picture *first, const struct picture *second)
{
    static uint8_t work[ZUVAROPY_WORK_BYTES];
    const uint64_t word = reference_verify(first->bytes, first->length, second->bytes, second->length, work, 0, work,
                                           sizeof work);

    return word == word_evidence(ZUVAROPY_QUESTION_FORM) ? 0 : word;
}

uint64_t pair_refusal(const struct picture *first, const struct picture *second, const struct buffers *lent,
                      size_t result_needed)
{
    const uint64_t refusal = refusal_of(first, FEATURE_FIRST);

    if (lent->work.length < ZUVAROPY_WORK_BYTES || lent->result.length < result_needed)
        return word_short();
    if (calls_are_under())
        return refusal_under(first, second);
    return word_of_pictures(refusal, refusal_of(second, FEATURE_SECOND));
}

static void check_pictures(const struct buffers *lent)
{
    CHECK(lent_is_kept(&lent->first, 0));
    CHECK(lent_is_kept(&lent->second, 0));
}

void pair_check_kept(const struct buffers *lent)
{
    check_pictures(lent);
    CHECK(lent_is_kept(&lent->work, 0));
    CHECK(lent->result.memory == NULL || lent_is_kept(&lent->result, 0));
}

void pair_check_work(const struct picture *first, const struct picture *second, const struct buffers *lent)
{
    check_pictures(lent);
    normalize_check_half(lent->work.bytes, first);
    normalize_check_half(lent->work.bytes + ZUVAROPY_SECOND_TABLE_AT, second);
    CHECK(lent_is_kept(&lent->work, ZUVAROPY_WORK_BYTES));
}

void pair_return(struct buffers *lent)
{
    lent_return(&lent->first);
    lent_return(&lent->second);
    fuzz_return_definitions(&lent->definitions);
    lent_return(&lent->work);
    lent_return(&lent->result);
}

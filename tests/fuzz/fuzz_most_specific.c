/*
 * zuvaropy_most_specific: the answer is that of the questions asked one after
 * the other, and the set the one that the verdicts of zuvaropy_subsumes on each
 * two pictures give.
 */

#include "area.h"
#include "calls.h"
#include "check.h"
#include "fuzz.h"
#include "most_specific_reference.h"

static const struct refusable refusable[] = {
    {ZUVAROPY_QUESTION_BUFFER, ZUVAROPY_QUESTION_BUFFER, ZUVAROPY_INPUT_BUFFER},
    {ZUVAROPY_QUESTION_HEAD, ZUVAROPY_QUESTION_MERGED, ZUVAROPY_INPUT_FIRST},
    {ZUVAROPY_QUESTION_BOOK, ZUVAROPY_QUESTION_BOOK, ZUVAROPY_INPUT_BOOK},
    {ZUVAROPY_QUESTION_HEAD, ZUVAROPY_QUESTION_MERGED, ZUVAROPY_INPUT_CARD},
    DEFINITIONS_REFUSABLE,
    UNDER_REFUSABLE(ZUVAROPY_INPUT_FIRST),
    UNDER_REFUSABLE(ZUVAROPY_INPUT_CARD),
    {0, 0, 0},
};
const struct target fuzz_target = {"fuzz_most_specific", "pbd", refusable, ZUVAROPY_OUTCOME_YES};

static struct lookup in;

static unsigned int bits_of(uint32_t set)
{
    unsigned int bits = 0;

    for (; set > 0; set &= set - 1)
        bits++;
    return bits;
}

static uint64_t wanted_word(const struct lent *work)
{
    return work->length < ZUVAROPY_WORK_BYTES ? word_short() : reference_most_specific(&in);
}

int LLVMFuzzerTestOneInput(const uint8_t *data, size_t size)
{
    struct feed feed = {data, size};
    struct lent case_picture, book, definitions, work;
    uint64_t word;

    fuzz_lend(&feed, &work, NULL, 0);
    feed_picture(&feed, &in.case_picture, NULL);
    feed_book(&feed, &in);
    lent_file(&case_picture, in.case_picture.bytes, in.case_picture.length);
    lent_file(&book, in.book.bytes, in.book.length);
    fuzz_definitions(&feed, &definitions);
    word = call_most_specific(case_picture.bytes, case_picture.length, book.bytes, book.length, work.bytes,
                              work.length);
    fuzz_check_word(word);
    CHECK_WORD(word, wanted_word(&work), size);
    CHECK(lent_is_kept(&case_picture, 0));
    CHECK(lent_is_kept(&book, 0));
    if (zuvaropy_outcome(word) == ZUVAROPY_OUTCOME_REFUSAL) {
        CHECK(lent_is_kept(&work, 0));
    } else {
        fuzz_met(FEATURE_FIRST,
                 bits_of(zuvaropy_value(word)) * ZUVAROPY_MAX_CARDS + bits_of(reference_most_specific_subsuming()));
        CHECK(area_is_filled(work.bytes, ZUVAROPY_WORK_BYTES, 0));
        CHECK(lent_is_kept(&work, ZUVAROPY_WORK_BYTES));
    }
    lent_return(&case_picture);
    lent_return(&book);
    fuzz_return_definitions(&definitions);
    lent_return(&work);
    return fuzz_end();
}

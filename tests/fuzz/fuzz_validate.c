/*
 * zuvaropy_validate: the answer is that of the reference, and no part of a
 * picture that ends before it does is one.
 */

#include "calls.h"
#include "check.h"
#include "fuzz.h"
#include "reference.h"

static const struct refusable refusable[] = {
    {ZUVAROPY_QUESTION_HEAD, ZUVAROPY_QUESTION_IMPOSSIBLE, ZUVAROPY_INPUT_FIRST},
    {0, 0, 0},
};
const struct target fuzz_target = {"fuzz_validate", "p", refusable, ZUVAROPY_OUTCOME_YES};

/* A picture that is cut off lacks a head, or a row's value, in the row where it stops. */
static void check_cut(const struct picture *p, size_t length)
{
    const int head = length % ZUVAROPY_ROW_BYTES < ZUVAROPY_HEAD_BYTES;

    CHECK_WORD(call_validate(p->bytes, length),
               word_refusal(head ? ZUVAROPY_QUESTION_HEAD : ZUVAROPY_QUESTION_VALUE,
                            (unsigned int)(length / ZUVAROPY_ROW_BYTES)),
               length);
}

int LLVMFuzzerTestOneInput(const uint8_t *data, size_t size)
{
    static struct picture p;
    struct feed feed = {data, size};
    struct reference wanted;
    struct lent lent;
    uint64_t word;

    fuzz_lend(&feed, NULL, NULL, 0);
    feed_picture(&feed, &p, NULL);
    lent_file(&lent, p.bytes, p.length);
    word = call_validate(lent.bytes, lent.length);
    fuzz_check_word(word);
    wanted = reference_read(p.bytes, p.length);
    fuzz_met(FEATURE_FIRST, wanted.rows);
    CHECK_WORD(word, reference_word(&wanted), size);
    CHECK(lent_is_kept(&lent, 0));
    if (wanted.question == 0)
        check_cut(&p, feed_number(&feed) % p.length);
    lent_return(&lent);
    return fuzz_end();
}

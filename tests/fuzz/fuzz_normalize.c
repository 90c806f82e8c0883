/*
 * zuvaropy_normalize: the table is that of the reference and a picture, and it
 * and its own normal table have the instances of the picture.
 */

#include "calls.h"
#include "check.h"
#include "fuzz.h"
#include "lcs.h"
#include "normal_reference.h"

#include <string.h>

static const struct refusable refusable[] = {
    {ZUVAROPY_QUESTION_BUFFER, ZUVAROPY_QUESTION_BUFFER, ZUVAROPY_INPUT_BUFFER},
    {ZUVAROPY_QUESTION_HEAD, ZUVAROPY_QUESTION_MERGED, ZUVAROPY_INPUT_FIRST},
    DEFINITIONS_REFUSABLE,
    UNDER_REFUSABLE(ZUVAROPY_INPUT_FIRST),
    {0, 0, 0},
};
const struct target fuzz_target = {"fuzz_normalize", "pd", refusable, ZUVAROPY_OUTCOME_YES};

static struct picture p, table, again;

static uint64_t wanted_word(const struct lent *result, const struct normal_reference *normal)
{
    return result->length < ZUVAROPY_MAX_PICTURE_BYTES ? word_short() : normal->word;
}

static void check_table(const struct lent *result, size_t length)
{
    const unsigned int rows = (unsigned int)(length / ZUVAROPY_ROW_BYTES);

    table.length = length;
    memcpy(table.bytes, result->bytes, length);
    CHECK_WORD(call_validate(table.bytes, table.length), word_rows(rows), length);
    again.length = zuvaropy_value(
        call_normalize(table.bytes, table.length, again.bytes, ZUVAROPY_MAX_PICTURE_BYTES));
    lcs_check_equivalent(&p, &table);
    if (again.length > 0)
        lcs_check_equivalent(&table, &again);
}

int LLVMFuzzerTestOneInput(const uint8_t *data, size_t size)
{
    static struct normal_reference normal;
    struct feed feed = {data, size};
    struct lent picture, definitions, result;
    uint64_t word;
    size_t written;

    fuzz_lend(&feed, NULL, &result, ZUVAROPY_MAX_PICTURE_BYTES);
    feed_picture(&feed, &p, NULL);
    lent_file(&picture, p.bytes, p.length);
    fuzz_definitions(&feed, &definitions);
    word = call_normalize(picture.bytes, picture.length, result.bytes, result.length);
    fuzz_check_word(word);
    normal_reference_under(&normal, p.bytes, p.length);
    fuzz_met(FEATURE_FIRST, normal.merged);
    CHECK_WORD(word, wanted_word(&result, &normal), size);
    written = zuvaropy_value(word);
    fuzz_met(FEATURE_SECOND, (unsigned int)written / ZUVAROPY_ROW_BYTES);
    CHECK(lent_is_kept(&picture, 0));
    CHECK(lent_is_kept(&result, written));
    if (written > 0) {
        CHECK(memcmp(result.bytes, normal.bytes, written) == 0);
        check_table(&result, written);
    }
    lent_return(&picture);
    fuzz_return_definitions(&definitions);
    lent_return(&result);
    return fuzz_end();
}

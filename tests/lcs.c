#include "lcs.h"

#include "area.h"
#include "calls.h"
#include "check.h"
#include "lcs_reference.h"
#include "normalize.h"
#include "rows.h"

#include <string.h>

#define R 8
#define S 9

static struct area work, result;

static uint64_t lcs_areas(struct pair *pair, unsigned long at)
{
    static struct picture first, second;
    uint64_t word, wanted;

    memcpy(first.bytes, pair->first.bytes, pair->first.length);
    memcpy(second.bytes, pair->second.bytes, pair->second.length);
    word = call_lcs(pair->first.bytes, pair->first.length, pair->second.bytes, pair->second.length,
                    area_lent(&work), work.room, area_lent(&result), result.room);
    CHECK(memcmp(first.bytes, pair->first.bytes, pair->first.length) == 0);
    CHECK(memcmp(second.bytes, pair->second.bytes, pair->second.length) == 0);
    wanted = reference_lcs(pair->first.bytes, pair->first.length, pair->second.bytes, pair->second.length,
                           area_wanted(&work), work.room, area_wanted(&result), result.room);
    CHECK_WORD(word, wanted, at);
    CHECK(area_is_as_wanted(&work));
    CHECK(area_is_as_wanted(&result));
    picture_clear(&pair->common);
    if (word == wanted && zuvaropy_outcome(word) == ZUVAROPY_OUTCOME_YES) {
        pair->common.length = zuvaropy_value(word);
        memcpy(pair->common.bytes, area_lent(&result), pair->common.length);
        CHECK_WORD(call_validate(pair->common.bytes, pair->common.length), word_rows(reference_lcs_kept()), at);
    }
    return word;
}

uint64_t lcs_room(struct pair *pair, size_t work_room, size_t result_room, unsigned int fill, unsigned long at)
{
    area_fill(&work, work_room, fill);
    area_fill(&result, result_room, fill);
    return lcs_areas(pair, at);
}

uint64_t lcs_any(struct pair *pair, unsigned long at)
{
    area_fill_any(&work, ZUVAROPY_WORK_BYTES);
    area_fill_any(&result, ZUVAROPY_MAX_PICTURE_BYTES);
    return lcs_areas(pair, at);
}

void lcs_check(struct pair *pair, uint64_t wanted, unsigned long at)
{
    unsigned int i;

    for (i = 0; i < sizeof normalize_fills; i++)
        CHECK_WORD(lcs_room(pair, ZUVAROPY_WORK_BYTES, ZUVAROPY_MAX_PICTURE_BYTES, normalize_fills[i], at), wanted, at);
}

void lcs_check_rows(struct pair *pair, unsigned int rows, unsigned long at)
{
    CHECK_WORD(lcs_any(pair, at),
               rows <= ZUVAROPY_MAX_ROWS ? word_length(rows) : word_second(ZUVAROPY_QUESTION_COMMON, 0), at);
    CHECK(reference_lcs_kept() == rows);
}

unsigned int lcs_subsumes(const struct picture *first, const struct picture *second)
{
    static uint8_t space[ZUVAROPY_WORK_BYTES], evidence[ZUVAROPY_MAX_EVIDENCE_BYTES];

    return zuvaropy_outcome(call_subsumes(first->bytes, first->length, second->bytes, second->length, space,
                                          sizeof space, evidence, sizeof evidence));
}

/* Has the picture a normal table, so that it can be compared? */
static int is_normalized(const struct picture *p)
{
    static uint8_t table[ZUVAROPY_MAX_PICTURE_BYTES];
    const uint64_t word = call_normalize(p->bytes, p->length, table, sizeof table);

    CHECK(zuvaropy_outcome(word) == ZUVAROPY_OUTCOME_YES || word == word_refusal(ZUVAROPY_QUESTION_MERGED, 0));
    return zuvaropy_outcome(word) == ZUVAROPY_OUTCOME_YES;
}

int lcs_check_subsumes(const struct pair *pair)
{
    if (!is_normalized(&pair->common))
        return 0;
    CHECK(lcs_subsumes(&pair->first, &pair->common) == ZUVAROPY_OUTCOME_YES);
    CHECK(lcs_subsumes(&pair->second, &pair->common) == ZUVAROPY_OUTCOME_YES);
    return 1;
}

void lcs_check_equivalent(const struct picture *first, const struct picture *second)
{
    if (is_normalized(first) && is_normalized(second)) {
        CHECK(lcs_subsumes(first, second) == ZUVAROPY_OUTCOME_YES);
        CHECK(lcs_subsumes(second, first) == ZUVAROPY_OUTCOME_YES);
    }
}

/* So many existential restrictions below the root. */
static void make_fan(struct picture *p, unsigned int count)
{
    picture_fan(p, 1 + count);
    picture_end(p);
}

uint64_t lcs_make(struct pair *pair, unsigned int n)
{
    const uint64_t word = n < PICTURE_WORDS ? word_number(n) : 0;

    rows_picture(&pair->first, ROWS(ROOT(NAME(1), 0), SOME(0, R, NAME(2), 0), SOME(1, S, 0, 0), ALL(0, R, 0, NAME(3))));
    rows_picture(&pair->second, ROWS(ROOT(NAME(1), 0), ALL(0, S, NAME(2), 0), SOME(0, R, 0, NAME(3))));
    if (n == PICTURE_WORDS) {
        make_fan(&pair->first, 16);
        make_fan(&pair->second, 16);
        return word_second(ZUVAROPY_QUESTION_COMMON, 0);
    }
    if (zuvaropy_input(word) == ZUVAROPY_INPUT_FIRST)
        picture_refused(&pair->first, zuvaropy_question(word));
    if (zuvaropy_input(word) == ZUVAROPY_INPUT_SECOND)
        picture_refused(&pair->second, zuvaropy_question(word));
    return n < PICTURE_WORDS ? word : word_length(2);
}

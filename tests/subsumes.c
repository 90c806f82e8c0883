#include "subsumes.h"

#include "area.h"
#include "calls.h"
#include "check.h"
#include "definitions_reference.h"
#include "normalize.h"
#include "rows.h"
#include "verify.h"
#include "verify_reference.h"
#include "witness.h"

#include <string.h>

static struct area work, result;

/* The word and, in both areas, all that the call must write, but for a
 * refutation and its length. Up to question 14 it is what the reference does
 * with empty evidence, which question 16 refuses. */
static uint64_t wanted_verdict(struct inputs *in)
{
    uint64_t word;

    evidence_clear(&in->evidence);
    if (result.room < ZUVAROPY_MAX_EVIDENCE_BYTES)
        return word_short();
    word = reference_verify(in->first.bytes, in->first.length, in->second.bytes, in->second.length, in->evidence.bytes,
                            in->evidence.length, area_wanted(&work), work.room);
    if (word != word_evidence(ZUVAROPY_QUESTION_FORM))
        return word;
    if (!witness_make(in))
        return word_no();
    memcpy(area_wanted(&result), in->evidence.bytes, in->evidence.length);
    return (uint64_t)1 << 56 | in->evidence.length;
}

/* A row with all names that the rows of a picture, unfolded, want, and all that they exclude. */
static struct row all_names(const struct picture *p)
{
    static struct row rows[ZUVAROPY_MAX_ROWS];
    static struct picture unfolded;
    struct row all = ROOT(0, 0);
    unsigned int i;

    reference_unfold(&unfolded, p->bytes, p->length);
    rows_read(rows, unfolded.bytes, picture_rows(&unfolded));
    for (i = 0; i < picture_rows(&unfolded); i++) {
        all.wanted |= rows[i].wanted;
        all.excluded |= rows[i].excluded;
    }
    return all;
}

/* Each name of an individual is one that the first picture wants or the second excludes. */
static void check_names(struct inputs *in)
{
    const uint64_t names = all_names(&in->first).wanted | all_names(&in->second).excluded;
    uint64_t held = 0;
    unsigned int i;

    for (i = 0; ZUVAROPY_REFUTATION_BYTES(i) < in->evidence.length; i++)
        held |= rows_number(evidence_value(&in->evidence, i) + ZUVAROPY_INDIVIDUAL_NAMES_AT, ZUVAROPY_NAME_SET_BYTES);
    CHECK((held & ~names) == 0);
}

/* A refutation that was written is what should be there. */
static void take_refutation(struct inputs *in, size_t length)
{
    CHECK(length >= ZUVAROPY_REFUTATION_BYTES(1) && length <= ZUVAROPY_MAX_EVIDENCE_BYTES);
    if (length > ZUVAROPY_MAX_EVIDENCE_BYTES)
        length = 0;
    in->evidence.length = length;
    memcpy(in->evidence.bytes, area_lent(&result), length);
    memcpy(area_wanted(&result), area_lent(&result), length);
    check_names(in);
}

/* The evidence is taken, from the result buffer itself with the same work space, and by the reference. */
static void check_taken(const struct inputs *in, uint64_t word, unsigned long at)
{
    const uint64_t taken = word >> ZUVAROPY_OUTCOME_SHIFT << ZUVAROPY_OUTCOME_SHIFT;

    CHECK_WORD(call_verify(in->first.bytes, in->first.length, in->second.bytes, in->second.length,
                           area_lent(&result), zuvaropy_value(word), area_lent(&work), work.room),
               taken, at);
    CHECK(area_is_as_wanted(&work));
    CHECK(area_is_as_wanted(&result));
    CHECK_WORD(verify_any(in, at), taken, at);
}

static uint64_t subsumes_areas(struct inputs *in, unsigned long at)
{
    static struct picture first, second;
    uint64_t word, wanted;

    memcpy(first.bytes, in->first.bytes, in->first.length);
    memcpy(second.bytes, in->second.bytes, in->second.length);
    word = call_subsumes(in->first.bytes, in->first.length, in->second.bytes, in->second.length, area_lent(&work),
                         work.room, area_lent(&result), result.room);
    CHECK(memcmp(first.bytes, in->first.bytes, in->first.length) == 0);
    CHECK(memcmp(second.bytes, in->second.bytes, in->second.length) == 0);
    wanted = wanted_verdict(in);
    CHECK_WORD(word_verdict(word), wanted, at);
    if (wanted == word_no())
        take_refutation(in, zuvaropy_value(word));
    CHECK(area_is_as_wanted(&work));
    CHECK(area_is_as_wanted(&result));
    if (word_verdict(word) == wanted && zuvaropy_outcome(word) != ZUVAROPY_OUTCOME_REFUSAL)
        check_taken(in, word, at);
    return word;
}

uint64_t subsumes_room(struct inputs *in, size_t work_room, size_t result_room, unsigned int fill, unsigned long at)
{
    area_fill(&work, work_room, fill);
    area_fill(&result, result_room, fill);
    return subsumes_areas(in, at);
}

uint64_t subsumes_any(struct inputs *in, unsigned long at)
{
    area_fill_any(&work, ZUVAROPY_WORK_BYTES);
    area_fill_any(&result, ZUVAROPY_MAX_EVIDENCE_BYTES);
    return subsumes_areas(in, at);
}

void subsumes_check(struct inputs *in, uint64_t wanted, unsigned long at)
{
    unsigned int i;

    for (i = 0; i < sizeof normalize_fills; i++)
        CHECK_WORD(word_verdict(subsumes_room(in, ZUVAROPY_WORK_BYTES, ZUVAROPY_MAX_EVIDENCE_BYTES, normalize_fills[i],
                                              at)),
                   wanted, at);
}

uint64_t word_yes(unsigned int rows)
{
    return (uint64_t)1 << 56 | (3 + 2 * rows + 3);
}

uint64_t word_no(void)
{
    return (uint64_t)2 << 56;
}

uint64_t word_verdict(uint64_t word)
{
    return zuvaropy_outcome(word) == ZUVAROPY_OUTCOME_NO ? word & ~(uint64_t)0xFFFFFFFF : word;
}

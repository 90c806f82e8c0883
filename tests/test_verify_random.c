/*
 * The library and the reference agree on pictures made at random, with good
 * evidence, with the same damaged, and with evidence made at random. The seed
 * is fixed: every run tests the same ones.
 */

#include "check.h"
#include "random.h"
#include "rows.h"
#include "verify.h"
#include "witness.h"

#include <string.h>

#define PAIRS 12000
#define DAMAGES 6 /* of each good evidence */

static struct inputs in;
static struct evidence good;

/* How often each answer was met. */
static struct {
    unsigned long refused[ZUVAROPY_INPUT_EVIDENCE + 1][ZUVAROPY_QUESTION_REFUTED + 1];
    unsigned long map, refutation;
    unsigned long long_map, long_refutation; /* of more than 50 rows or individuals */
} met;

static void check_inputs(unsigned long at)
{
    const uint64_t word = verify_any(&in, at);

    if (zuvaropy_outcome(word) == ZUVAROPY_OUTCOME_REFUSAL)
        met.refused[zuvaropy_input(word)][zuvaropy_question(word)]++;
    else if (zuvaropy_outcome(word) == ZUVAROPY_OUTCOME_YES)
        met.map++;
    else
        met.refutation++;
}

/* Evidence at random */

static void make_random_map(unsigned int rows)
{
    unsigned int images[ZUVAROPY_MAX_ROWS];
    const unsigned int limit = 1 + random_below(picture_rows(&in.first));
    unsigned int row;

    for (row = 0; row < rows; row++)
        images[row] = row == 0 ? 0 : random_below(limit);
    evidence_map(&in.evidence, images, rows);
}

static void make_random_refutation(const struct shape *s)
{
    const unsigned int count = 1 + random_below(random_below(64) == 0 ? ZUVAROPY_MAX_INDIVIDUALS : 20);
    const uint64_t names = random_below(2) ? random_next() : 0;
    unsigned int i;

    evidence_clear(&in.evidence);
    evidence_individual(&in.evidence, 0, 0, names);
    for (i = 1; i < count; i++)
        evidence_individual(&in.evidence, random_below(i), random_below(s->roles),
                            random_below(2) ? names : NAME(random_below(s->names)));
    evidence_end(&in.evidence);
}

/* Damaged evidence */

static void change_image(struct evidence *e)
{
    const unsigned int rows = (unsigned int)(e->length - 2 * ZUVAROPY_HEAD_BYTES) / ZUVAROPY_IMAGE_BYTES;
    uint8_t *image = evidence_image(e, random_below(rows));

    if (random_below(2))
        evidence_put(image, random_below(1 + picture_rows(&in.first)));
    else
        memcpy(image, evidence_image(e, random_below(rows)), ZUVAROPY_IMAGE_BYTES);
}

static void change_individual(struct evidence *e, const struct shape *s)
{
    const unsigned int count = (unsigned int)(e->length / ZUVAROPY_INDIVIDUAL_BYTES), i = random_below(count);
    const unsigned int name = random_below(s->names);
    uint8_t *value = evidence_value(e, i);

    switch (random_below(5)) {
    case 0:
        evidence_put(value + ZUVAROPY_INDIVIDUAL_PARENT_AT, random_below(i + 2));
        break;
    case 1:
        value[ZUVAROPY_INDIVIDUAL_ROLE_AT] = (uint8_t)random_below(s->roles + 1);
        break;
    case 2:
        e->length -= ZUVAROPY_INDIVIDUAL_BYTES + ZUVAROPY_HEAD_BYTES;
        evidence_end(e);
        break;
    case 3:
        e->length -= ZUVAROPY_HEAD_BYTES;
        evidence_individual(e, i, random_below(s->roles), NAME(name));
        evidence_end(e);
        break;
    default:
        value[ZUVAROPY_INDIVIDUAL_NAMES_AT + 7 - name / 8] ^= (uint8_t)(1 << name % 8);
    }
}

static void change_bytes(struct evidence *e)
{
    const size_t at = random_below((unsigned int)e->length);

    switch (random_below(4)) {
    case 0:
        e->length = at;
        break;
    case 1:
        evidence_byte(e, (unsigned int)random_next() & 0xFF);
        break;
    default:
        e->bytes[at] = (uint8_t)random_next();
    }
}

static void damage_evidence(const struct shape *s)
{
    unsigned int damages;

    in.evidence = good;
    for (damages = 1 + random_below(3); damages > 0 && in.evidence.length >= ZUVAROPY_MAP_BYTES(1); damages--)
        if (random_below(8) == 0)
            change_bytes(&in.evidence);
        else if (in.evidence.bytes[0] == ZUVAROPY_TAG_MAP)
            change_image(&in.evidence);
        else if (in.evidence.length >= ZUVAROPY_REFUTATION_BYTES(1))
            change_individual(&in.evidence, s);
}

/* Good evidence is taken, whatever the pair. */
static void check_good(unsigned long at)
{
    const int map = witness_make(&in);

    CHECK_WORD(verify_any(&in, at), map ? word_map_taken() : word_refutation_taken(), at);
    met.long_map += map && in.evidence.length > ZUVAROPY_MAP_BYTES(50);
    met.long_refutation += !map && in.evidence.length > ZUVAROPY_REFUTATION_BYTES(50);
    good = in.evidence;
}

static void check_pair(const struct shape *s, unsigned long at)
{
    unsigned int i;

    evidence_clear(&in.evidence);
    if (zuvaropy_question(verify_any(&in, at)) != ZUVAROPY_QUESTION_FORM) { /* a picture is refused */
        check_inputs(at);
        return;
    }
    check_good(at);
    for (i = 0; i < DAMAGES; i++) {
        damage_evidence(s);
        check_inputs(at);
    }
    make_random_map(1 + random_below(picture_rows(&in.second)));
    check_inputs(at);
    make_random_refutation(s);
    check_inputs(at);
}

int main(void)
{
    unsigned long i;
    unsigned int question;

    for (i = 0; i < PAIRS; i++) {
        struct shape shape = random_shape();

        if (i % 2 == 0) /* few value restrictions: large pictures have tables too */
            shape.all = random_below(2);
        random_pair(&in.first, &in.second, &shape);
        check_pair(&shape, i);
    }

    /* The inputs reach every answer, and often. */
    CHECK(met.map > PAIRS / 10);
    CHECK(met.refutation > PAIRS / 10);
    CHECK(met.long_map > PAIRS / 200);
    CHECK(met.long_refutation > PAIRS / 200);
    CHECK(met.refused[ZUVAROPY_INPUT_FIRST][ZUVAROPY_QUESTION_MERGED] > PAIRS / 100);
    CHECK(met.refused[ZUVAROPY_INPUT_SECOND][ZUVAROPY_QUESTION_MERGED] > PAIRS / 1000);
    for (question = ZUVAROPY_QUESTION_FORM; question <= ZUVAROPY_QUESTION_REFUTED; question++)
        CHECK(met.refused[ZUVAROPY_INPUT_EVIDENCE][question] > PAIRS / 100);
    return check_summary("verify at random");
}

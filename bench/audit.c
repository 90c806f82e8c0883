#include "audit.h"

#include "merge.h"
#include "scan.h"
#include "zuvaropy.h"

#include <string.h>

/* Rows of a normal table and individuals are linked by number: the first below, and the next below the same one. There
 * is none at 0. */
struct row {
    uint64_t wanted, excluded;
    uint16_t parent;
    uint8_t kind, role, impossible;
    uint16_t first, next;
};

struct individual {
    uint64_t names;
    uint16_t first, next;
    uint8_t role;
};

static unsigned int load_number(const uint8_t *bytes)
{
    return bytes[0] * 256u + bytes[1];
}

static uint64_t load_set(const uint8_t *bytes)
{
    uint64_t set;

    memcpy(&set, bytes, sizeof set);
    return __builtin_bswap64(set);
}

static void load_rows(struct row *rows, const uint8_t *table, unsigned int count)
{
    unsigned int n;

    for (n = 0; n < count; n++) {
        const uint8_t *value = table + n * ZUVAROPY_ROW_BYTES + ZUVAROPY_HEAD_BYTES;

        rows[n].wanted = load_set(value + ZUVAROPY_WANTED_AT);
        rows[n].excluded = load_set(value + ZUVAROPY_EXCLUDED_AT);
        rows[n].parent = value[ZUVAROPY_PARENT_AT + 1];
        rows[n].kind = value[ZUVAROPY_KIND_AT];
        rows[n].role = value[ZUVAROPY_ROLE_AT];
        rows[n].impossible = value[ZUVAROPY_IMPOSSIBLE_AT];
        rows[n].first = 0;
    }
    for (n = count; n-- > 1;) {
        rows[n].next = rows[rows[n].parent].first;
        rows[rows[n].parent].first = (uint16_t)n;
    }
}

/* Forms */

static int has_head(const uint8_t *at, unsigned int tag, unsigned int length)
{
    return at[0] == tag && load_number(at + ZUVAROPY_TAG_BYTES) == length;
}

static int is_map(const uint8_t *evidence, size_t length, unsigned int rows)
{
    return length == ZUVAROPY_MAP_BYTES((size_t)rows) &&
           has_head(evidence, ZUVAROPY_TAG_MAP, rows * ZUVAROPY_IMAGE_BYTES) &&
           has_head(evidence + length - ZUVAROPY_HEAD_BYTES, ZUVAROPY_TAG_END, ZUVAROPY_END_VALUE_BYTES);
}

/* The number of individuals; 0 if it is no refutation. */
static unsigned int count_individuals(const uint8_t *evidence, size_t length)
{
    const size_t count = length / ZUVAROPY_INDIVIDUAL_BYTES;
    size_t i;

    if (count == 0 || count > ZUVAROPY_MAX_INDIVIDUALS || length != ZUVAROPY_REFUTATION_BYTES(count))
        return 0;
    for (i = 0; i < count; i++)
        if (!has_head(evidence + i * ZUVAROPY_INDIVIDUAL_BYTES, ZUVAROPY_TAG_INDIVIDUAL,
                      ZUVAROPY_INDIVIDUAL_VALUE_BYTES))
            return 0;
    return has_head(evidence + length - ZUVAROPY_HEAD_BYTES, ZUVAROPY_TAG_END, ZUVAROPY_END_VALUE_BYTES)
               ? (unsigned int)count
               : 0;
}

/* Maps */

static unsigned int ask_map(const struct row *first, unsigned int first_rows, const struct row *second,
                            unsigned int second_rows, const uint8_t *images)
{
    unsigned int n;

    for (n = 0; n < second_rows; n++) {
        const struct row *row = &second[n];
        const unsigned int to = load_number(images + n * ZUVAROPY_IMAGE_BYTES);
        const unsigned int from = load_number(images + row->parent * ZUVAROPY_IMAGE_BYTES);

        if (to >= first_rows)
            return ZUVAROPY_QUESTION_IMAGE;
        if (n == 0 && to != 0)
            return ZUVAROPY_QUESTION_ROOT_IMAGE;
        if (!first[to].impossible &&
            (row->impossible || (row->wanted & ~first[to].wanted) != 0 || (row->excluded & ~first[to].excluded) != 0))
            return ZUVAROPY_QUESTION_LABEL;
        if (n == 0 || (to == from && first[to].impossible))
            continue;
        if (to == 0 || first[to].parent != from || first[to].kind != row->kind || first[to].role != row->role)
            return ZUVAROPY_QUESTION_EDGE;
    }
    return 0;
}

/* Refutations */

static int load_individuals(struct individual *individuals, const uint8_t *evidence, unsigned int count)
{
    unsigned int n;

    for (n = 0; n < count; n++) {
        const uint8_t *value = evidence + n * ZUVAROPY_INDIVIDUAL_BYTES + ZUVAROPY_HEAD_BYTES;
        const unsigned int parent = load_number(value + ZUVAROPY_INDIVIDUAL_PARENT_AT);
        const unsigned int role = value[ZUVAROPY_INDIVIDUAL_ROLE_AT];

        if (n == 0 ? parent != 0 || role != 0 : parent >= n || role >= ZUVAROPY_ROLES)
            return 0;
        individuals[n].names = load_set(value + ZUVAROPY_INDIVIDUAL_NAMES_AT);
        individuals[n].role = (uint8_t)role;
        individuals[n].first = 0;
    }
    for (n = count; n-- > 1;) {
        const unsigned int parent =
            load_number(evidence + n * ZUVAROPY_INDIVIDUAL_BYTES + ZUVAROPY_HEAD_BYTES + ZUVAROPY_INDIVIDUAL_PARENT_AT);

        individuals[n].next = individuals[parent].first;
        individuals[parent].first = (uint16_t)n;
    }
    return 1;
}

static int fits(const struct individual *individuals, unsigned int i, const struct row *rows, unsigned int n)
{
    const uint64_t names = individuals[i].names;
    unsigned int c, k;

    if (rows[n].impossible || (rows[n].wanted & ~names) != 0 || (rows[n].excluded & names) != 0)
        return 0;
    for (c = rows[n].first; c != 0; c = rows[c].next) {
        const int every = rows[c].kind == ZUVAROPY_KIND_FORALL;

        for (k = individuals[i].first; k != 0; k = individuals[k].next)
            if (individuals[k].role == rows[c].role && fits(individuals, k, rows, c) != every)
                break;
        if ((k == 0) != every)
            return 0;
    }
    return 1;
}

static unsigned int ask_refutation(const struct row *first, const struct row *second, const uint8_t *evidence,
                                   unsigned int count)
{
    struct individual individuals[ZUVAROPY_MAX_INDIVIDUALS];

    if (!load_individuals(individuals, evidence, count))
        return ZUVAROPY_QUESTION_INDIVIDUAL;
    if (!fits(individuals, 0, first, 0))
        return ZUVAROPY_QUESTION_INSTANCE;
    if (fits(individuals, 0, second, 0))
        return ZUVAROPY_QUESTION_REFUTED;
    return 0;
}

/* The call */

static uint64_t refusal(unsigned int input, unsigned int question)
{
    return (uint64_t)question << ZUVAROPY_QUESTION_SHIFT | (uint64_t)input << ZUVAROPY_INPUT_SHIFT;
}

/* A refusal of the first picture as one of the second, at the same place. */
static uint64_t of_second(uint64_t word)
{
    return word + ((uint64_t)(ZUVAROPY_INPUT_SECOND - ZUVAROPY_INPUT_FIRST) << ZUVAROPY_INPUT_SHIFT);
}

static uint64_t answer(unsigned int outcome, unsigned int question)
{
    return question == 0 ? (uint64_t)outcome << ZUVAROPY_OUTCOME_SHIFT : refusal(ZUVAROPY_INPUT_EVIDENCE, question);
}

static uint64_t check(const uint8_t *work, unsigned int first_rows, unsigned int second_rows, const uint8_t *evidence,
                      size_t evidence_len)
{
    struct row first[ZUVAROPY_MAX_ROWS], second[ZUVAROPY_MAX_ROWS];
    unsigned int count;

    load_rows(first, work, first_rows);
    load_rows(second, work + ZUVAROPY_SECOND_TABLE_AT, second_rows);
    if (is_map(evidence, evidence_len, second_rows))
        return answer(ZUVAROPY_OUTCOME_YES,
                      ask_map(first, first_rows, second, second_rows, evidence + ZUVAROPY_HEAD_BYTES));
    count = count_individuals(evidence, evidence_len);
    if (count > 0)
        return answer(ZUVAROPY_OUTCOME_NO, ask_refutation(first, second, evidence, count));
    return refusal(ZUVAROPY_INPUT_EVIDENCE, ZUVAROPY_QUESTION_FORM);
}

uint64_t audit_verify(const uint8_t *first, size_t first_len, const uint8_t *second, size_t second_len,
                      const uint8_t *evidence, size_t evidence_len, uint8_t *work, size_t work_len)
{
    uint8_t table[ZUVAROPY_MAX_PICTURE_BYTES];
    uint8_t *half;
    uint64_t first_word, second_word;
    size_t first_size, second_size;

    if (work_len < ZUVAROPY_WORK_BYTES)
        return refusal(ZUVAROPY_INPUT_BUFFER, ZUVAROPY_QUESTION_BUFFER);
    first_word = scan_validate(first, first_len);
    if (zuvaropy_outcome(first_word) == ZUVAROPY_OUTCOME_REFUSAL)
        return first_word;
    second_word = scan_validate(second, second_len);
    if (zuvaropy_outcome(second_word) == ZUVAROPY_OUTCOME_REFUSAL)
        return of_second(second_word);

    /* The first waits until the second is seen to have a table too: a refusal writes nothing. */
    first_size = merge_table(first, zuvaropy_value(first_word), table);
    if (first_size == 0)
        return refusal(ZUVAROPY_INPUT_FIRST, ZUVAROPY_QUESTION_MERGED);
    half = work + ZUVAROPY_SECOND_TABLE_AT;
    second_size = merge_table(second, zuvaropy_value(second_word), half);
    if (second_size == 0)
        return refusal(ZUVAROPY_INPUT_SECOND, ZUVAROPY_QUESTION_MERGED);
    memcpy(work, table, first_size);
    memset(work + first_size, 0, ZUVAROPY_SECOND_TABLE_AT - first_size);
    memset(half + second_size, 0, ZUVAROPY_WORK_BYTES - ZUVAROPY_SECOND_TABLE_AT - second_size);
    return check(work, (unsigned int)(first_size / ZUVAROPY_ROW_BYTES),
                 (unsigned int)(second_size / ZUVAROPY_ROW_BYTES), evidence, evidence_len);
}

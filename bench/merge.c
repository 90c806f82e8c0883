#include "merge.h"

#include "scan.h"
#include "zuvaropy.h"

#include <string.h>

/*
 * The rows of the picture are sorted by role, kind and number first, so that
 * the successors of any set of rows are the bits of one set, in the order in
 * which the table wants them. A merged row needs only the union of the labels
 * of its rows and of their successors, never the rows themselves.
 */

#define WORDS (ZUVAROPY_MAX_ROWS / 64)
#define KINDS 2
#define GROUPS (ZUVAROPY_ROLES * KINDS)

/* What a row, or a set of rows, says. */
struct part {
    uint64_t wanted, excluded;
    uint64_t successors[WORDS]; /* sorted rows */
    uint64_t impossible;
};

/* A row of the merged table. */
struct node {
    uint64_t wanted, excluded;
    uint16_t parent;
    uint8_t kind, role, impossible;
    uint8_t kept; /* has a successor that is not dropped */
};

struct merge {
    unsigned int rows, words, nodes;
    uint8_t group[ZUVAROPY_MAX_ROWS]; /* of a sorted row: role, then all before some */
    struct part part[ZUVAROPY_MAX_ROWS];
    struct node node[ZUVAROPY_MAX_ROWS];
};

static uint64_t load_set(const uint8_t *bytes)
{
    uint64_t set;

    memcpy(&set, bytes, sizeof set);
    return __builtin_bswap64(set);
}

static void store_set(uint8_t *bytes, uint64_t set)
{
    set = __builtin_bswap64(set);
    memcpy(bytes, &set, sizeof set);
}

static unsigned int group_of(const uint8_t *value)
{
    return value[ZUVAROPY_ROLE_AT] * KINDS + (value[ZUVAROPY_KIND_AT] == ZUVAROPY_KIND_EXISTS);
}

/* The rows other than the root by group, each group in the picture's order; the root comes last. */
static void sort_rows(const uint8_t *picture, unsigned int rows, uint8_t *place)
{
    uint16_t next[GROUPS + 1] = {0};
    unsigned int row, g;

    for (row = 1; row < rows; row++)
        next[group_of(picture + row * ZUVAROPY_ROW_BYTES + ZUVAROPY_HEAD_BYTES) + 1]++;
    for (g = 1; g < GROUPS; g++)
        next[g] = (uint16_t)(next[g] + next[g - 1]);
    for (row = 1; row < rows; row++)
        place[row] = (uint8_t)next[group_of(picture + row * ZUVAROPY_ROW_BYTES + ZUVAROPY_HEAD_BYTES)]++;
    place[0] = (uint8_t)(rows - 1);
}

static void read_rows(struct merge *m, const uint8_t *picture, unsigned int rows)
{
    uint8_t place[ZUVAROPY_MAX_ROWS];
    unsigned int row, i;

    sort_rows(picture, rows, place);
    m->rows = rows;
    m->words = (rows + 63) / 64;
    for (row = 0; row < rows; row++) {
        const uint8_t *value = picture + row * ZUVAROPY_ROW_BYTES + ZUVAROPY_HEAD_BYTES;
        const unsigned int at = place[row];
        struct part *part = &m->part[at];

        part->wanted = load_set(value + ZUVAROPY_WANTED_AT);
        part->excluded = load_set(value + ZUVAROPY_EXCLUDED_AT);
        part->impossible = value[ZUVAROPY_IMPOSSIBLE_AT];
        for (i = 0; i < WORDS; i++)
            part->successors[i] = 0;
        m->group[at] = (uint8_t)group_of(value);
        if (row > 0) {
            const unsigned int parent = place[value[ZUVAROPY_PARENT_AT + 1]];

            m->part[parent].successors[at / 64] |= UINT64_C(1) << at % 64;
        }
    }
}

static void add(struct part *to, const struct part *part)
{
    unsigned int i;

    to->wanted |= part->wanted;
    to->excluded |= part->excluded;
    to->impossible |= part->impossible;
    for (i = 0; i < WORDS; i++)
        to->successors[i] |= part->successors[i];
}

/* The first row of the set from `at` on; m->rows if there is none. */
static unsigned int next_row(const struct merge *m, const uint64_t *set, unsigned int at)
{
    unsigned int word = at / 64;
    uint64_t rest;

    if (word >= m->words)
        return m->rows;
    rest = set[word] >> at % 64 << at % 64;
    while (rest == 0) {
        if (++word == m->words)
            return m->rows;
        rest = set[word];
    }
    return word * 64 + (unsigned int)__builtin_ctzll(rest);
}

/* A merged row and all below it; 0 once there are too many. */
static int merge_rows(struct merge *m, unsigned int parent, unsigned int kind, unsigned int role,
                      const struct part *part)
{
    const unsigned int n = m->nodes;
    struct node *node = &m->node[n];
    unsigned int at;

    if (n == ZUVAROPY_MAX_ROWS)
        return 0;
    m->nodes++;
    node->wanted = part->wanted;
    node->excluded = part->excluded;
    node->parent = (uint16_t)parent;
    node->kind = (uint8_t)kind;
    node->role = (uint8_t)role;
    node->impossible = (part->wanted & part->excluded) != 0 || part->impossible != 0;
    node->kept = 0;

    at = next_row(m, part->successors, 0);
    while (at < m->rows) {
        const unsigned int successor_role = m->group[at] / KINDS;
        const unsigned int all_group = successor_role * KINDS, some_group = all_group + 1;
        struct part all = {0, 0, {0}, 0};

        if (m->group[at] == all_group) {
            do {
                add(&all, &m->part[at]);
                at = next_row(m, part->successors, at + 1);
            } while (at < m->rows && m->group[at] == all_group);
            if (!merge_rows(m, n, ZUVAROPY_KIND_FORALL, successor_role, &all))
                return 0;
        }
        while (at < m->rows && m->group[at] == some_group) {
            struct part some = all;

            add(&some, &m->part[at]);
            if (!merge_rows(m, n, ZUVAROPY_KIND_EXISTS, successor_role, &some))
                return 0;
            at = next_row(m, part->successors, at + 1);
        }
    }
    return 1;
}

/* From the leaves up. An inconsistent row is marked here, and a row that is to
 * be dropped gets ZUVAROPY_KIND_ROOT, which no other row below the root has. */
static void tidy(struct merge *m)
{
    unsigned int n;

    for (n = m->nodes; n-- > 1;) {
        struct node *node = &m->node[n], *parent = &m->node[node->parent];

        if (node->kind == ZUVAROPY_KIND_EXISTS) {
            parent->kept = 1;
            parent->impossible |= node->impossible;
        } else if (node->impossible || node->kept || (node->wanted | node->excluded) != 0) {
            parent->kept = 1;
        } else {
            node->kind = ZUVAROPY_KIND_ROOT;
        }
    }
}

static uint8_t *write_row(uint8_t *at, const struct node *node, unsigned int parent)
{
    uint8_t *value = at + ZUVAROPY_HEAD_BYTES;

    at[0] = ZUVAROPY_TAG_ROW;
    at[1] = 0;
    at[2] = ZUVAROPY_ROW_VALUE_BYTES;
    value[ZUVAROPY_PARENT_AT] = 0;
    value[ZUVAROPY_PARENT_AT + 1] = (uint8_t)parent;
    value[ZUVAROPY_KIND_AT] = node->kind;
    value[ZUVAROPY_ROLE_AT] = node->role;
    value[ZUVAROPY_IMPOSSIBLE_AT] = node->impossible;
    store_set(value + ZUVAROPY_WANTED_AT, node->impossible ? 0 : node->wanted);
    store_set(value + ZUVAROPY_EXCLUDED_AT, node->impossible ? 0 : node->excluded);
    return at + ZUVAROPY_ROW_BYTES;
}

/* The number of bytes. Nothing below an impossible row or a dropped one is written. */
static size_t write_table(const struct merge *m, uint8_t *result)
{
    enum { GONE = 0xFFFF };
    uint16_t number[ZUVAROPY_MAX_ROWS]; /* in the table, of a row that has successors there */
    uint8_t *at = write_row(result, &m->node[0], 0);
    unsigned int n, rows = 1;

    number[0] = m->node[0].impossible ? GONE : 0;
    for (n = 1; n < m->nodes; n++) {
        const struct node *node = &m->node[n];
        const unsigned int parent = number[node->parent];

        number[n] = GONE;
        if (parent == GONE || node->kind == ZUVAROPY_KIND_ROOT)
            continue;
        at = write_row(at, node, parent);
        if (!node->impossible)
            number[n] = (uint16_t)rows;
        rows++;
    }
    at[0] = ZUVAROPY_TAG_END;
    at[1] = 0;
    at[2] = ZUVAROPY_END_VALUE_BYTES;
    return (size_t)(at - result) + ZUVAROPY_HEAD_BYTES;
}

size_t merge_table(const uint8_t *picture, unsigned int rows, uint8_t *result)
{
    struct merge m;

    read_rows(&m, picture, rows);
    m.nodes = 0;
    if (!merge_rows(&m, 0, ZUVAROPY_KIND_ROOT, 0, &m.part[m.rows - 1]))
        return 0;
    tidy(&m);
    return write_table(&m, result);
}

uint64_t merge_normalize(const uint8_t *picture, size_t picture_len, uint8_t *result, size_t result_len)
{
    uint64_t word;
    size_t length;

    if (result_len < ZUVAROPY_MAX_PICTURE_BYTES)
        return (uint64_t)ZUVAROPY_QUESTION_BUFFER << ZUVAROPY_QUESTION_SHIFT;
    word = scan_validate(picture, picture_len);
    if (zuvaropy_outcome(word) == ZUVAROPY_OUTCOME_REFUSAL)
        return word;
    length = merge_table(picture, zuvaropy_value(word), result);
    if (length == 0)
        return (uint64_t)ZUVAROPY_QUESTION_MERGED << ZUVAROPY_QUESTION_SHIFT |
               (uint64_t)ZUVAROPY_INPUT_FIRST << ZUVAROPY_INPUT_SHIFT;
    return (uint64_t)ZUVAROPY_OUTCOME_YES << ZUVAROPY_OUTCOME_SHIFT | length;
}

#include "lcs_reference.h"

#include "rows.h"
#include "verify_reference.h"

#include <assert.h>
#include <stdbool.h>

struct table {
    unsigned int rows;
    struct row row[ZUVAROPY_MAX_ROWS];
};

static struct table first, second;

/* A table in its half of the work space. */
static void read_half(struct table *table, const uint8_t *half)
{
    for (table->rows = 0; half[table->rows * ZUVAROPY_ROW_BYTES] == ZUVAROPY_TAG_ROW; table->rows++)
        ;
    rows_read(table->row, half, table->rows);
}

/* The product. Its rows are numbered depth first, so that the successors of a
 * row come after it. A row of the one meets a row of the other once at most. */

#define MAX_NODES (ZUVAROPY_MAX_ROWS * ZUVAROPY_MAX_ROWS)

static struct row nodes[MAX_NODES];
static unsigned int successors[MAX_NODES]; /* how many are not dropped */
static bool dropped[MAX_NODES];
static unsigned int node_count, kept_count;

static unsigned int add(const struct row *row, unsigned int parent)
{
    assert(node_count < MAX_NODES);
    nodes[node_count] = *row;
    nodes[node_count].parent = parent;
    return node_count++;
}

static bool is_successor(const struct table *table, unsigned int i, unsigned int row)
{
    return i != 0 && table->row[i].parent == row;
}

/* The row and its whole subtree. */
static void copy(const struct table *table, unsigned int row, unsigned int parent)
{
    const unsigned int n = add(&table->row[row], parent);
    unsigned int i;

    for (i = row + 1; i < table->rows; i++)
        if (is_successor(table, i, row))
            copy(table, i, n);
}

static bool hangs_by(const struct row *row, unsigned int kind, unsigned int role)
{
    return row->kind == kind && row->role == role;
}

static void pair(unsigned int v, unsigned int w, unsigned int parent);

/* Each successor of v with each of w, of this kind and role. */
static void pair_successors(unsigned int v, unsigned int w, unsigned int kind, unsigned int role, unsigned int n)
{
    unsigned int i, j;

    for (i = v + 1; i < first.rows; i++)
        if (is_successor(&first, i, v) && hangs_by(&first.row[i], kind, role))
            for (j = w + 1; j < second.rows; j++)
                if (is_successor(&second, j, w) && hangs_by(&second.row[j], kind, role))
                    pair(i, j, n);
}

/* The roles by which a row has successors, role r as the bit of weight 2^r. */
static uint32_t roles_of(const struct table *table, unsigned int row)
{
    uint32_t roles = 0;
    unsigned int i;

    for (i = row + 1; i < table->rows; i++)
        if (is_successor(table, i, row))
            roles |= UINT32_C(1) << table->row[i].role;
    return roles;
}

static void pair(unsigned int v, unsigned int w, unsigned int parent)
{
    struct row both = first.row[v];
    unsigned int n, role;
    uint32_t roles;

    if (first.row[v].impossible) {
        copy(&second, w, parent);
        return;
    }
    if (second.row[w].impossible) {
        copy(&first, v, parent);
        return;
    }
    both.wanted = first.row[v].wanted & second.row[w].wanted;
    both.excluded = first.row[v].excluded & second.row[w].excluded;
    n = add(&both, parent);
    roles = roles_of(&first, v) & roles_of(&second, w);
    for (role = 0; role < ZUVAROPY_ROLES; role++)
        if (roles >> role & 1) {
            pair_successors(v, w, ZUVAROPY_KIND_FORALL, role, n);
            pair_successors(v, w, ZUVAROPY_KIND_EXISTS, role, n);
        }
}

/* Dropping */

static bool says_nothing(unsigned int n)
{
    return nodes[n].wanted == 0 && nodes[n].excluded == 0 && !nodes[n].impossible && successors[n] == 0;
}

/* All below a row is done before the row. */
static void drop(void)
{
    unsigned int n;

    for (n = 0; n < node_count; n++)
        successors[n] = 0;
    kept_count = 0;
    for (n = node_count; n-- > 0;) {
        dropped[n] = nodes[n].kind == ZUVAROPY_KIND_FORALL && says_nothing(n);
        if (!dropped[n]) {
            kept_count++;
            successors[nodes[n].parent]++;
        }
    }
}

unsigned int reference_lcs_paired(void)
{
    return node_count;
}

unsigned int reference_lcs_kept(void)
{
    return kept_count;
}

/* Writing */

static void write_nodes(struct picture *p)
{
    static unsigned int number_of[MAX_NODES];
    unsigned int n, written = 0;

    picture_clear(p);
    for (n = 0; n < node_count; n++)
        if (!dropped[n]) {
            number_of[n] = written++;
            picture_row(p, number_of[nodes[n].parent], nodes[n].kind, nodes[n].role);
            picture_label(p, nodes[n].wanted, nodes[n].excluded, nodes[n].impossible);
        }
    picture_end(p);
}

/* The call */

static uint64_t refusal(unsigned int input, unsigned int question)
{
    return (uint64_t)question << ZUVAROPY_QUESTION_SHIFT | (uint64_t)input << ZUVAROPY_INPUT_SHIFT;
}

/* Up to question 14 it is what the check does with empty evidence, which question 16 refuses. */
static uint64_t prepare(const uint8_t *one, size_t one_len, const uint8_t *two, size_t two_len, uint8_t *work,
                        size_t work_len)
{
    static const uint8_t nothing[1];
    const uint64_t word = reference_verify(one, one_len, two, two_len, nothing, 0, work, work_len);

    return word == refusal(ZUVAROPY_INPUT_EVIDENCE, ZUVAROPY_QUESTION_FORM) ? 0 : word;
}

uint64_t reference_lcs(const uint8_t *one, size_t one_len, const uint8_t *two, size_t two_len, uint8_t *work,
                       size_t work_len, uint8_t *result, size_t result_len)
{
    static struct picture common;
    uint64_t word;
    size_t i;

    node_count = kept_count = 0;
    if (result_len < ZUVAROPY_MAX_PICTURE_BYTES)
        return refusal(ZUVAROPY_INPUT_BUFFER, ZUVAROPY_QUESTION_BUFFER);
    word = prepare(one, one_len, two, two_len, work, work_len);
    if (word != 0)
        return word;
    read_half(&first, work);
    read_half(&second, work + ZUVAROPY_SECOND_TABLE_AT);
    pair(0, 0, 0);
    drop();
    if (kept_count > ZUVAROPY_MAX_ROWS)
        return refusal(ZUVAROPY_INPUT_SECOND, ZUVAROPY_QUESTION_COMMON);
    write_nodes(&common);
    for (i = 0; i < common.length; i++)
        result[i] = common.bytes[i];
    return (uint64_t)ZUVAROPY_OUTCOME_YES << ZUVAROPY_OUTCOME_SHIFT | common.length;
}

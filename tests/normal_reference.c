#include "normal_reference.h"

#include "definitions_reference.h"
#include "reference.h"
#include "rows.h"

#include <stdbool.h>
#include <string.h>

static struct row rows[ZUVAROPY_MAX_ROWS];
static unsigned int row_count;

/* A row of the merged table. The rows are numbered depth first, so that the
 * successors of a row come after it. */
struct node {
    bool stands_for[ZUVAROPY_MAX_ROWS];
    unsigned int parent, kind, role;
    bool marked;
    uint64_t wanted, excluded;
    bool removed;
};

static struct node nodes[ZUVAROPY_MAX_ROWS];
static unsigned int node_count;

/* Merging */

/* Is row i a successor, of this kind and role, of the set that the node stands for? */
static bool is_successor(const struct node *node, unsigned int i, unsigned int kind, unsigned int role)
{
    return rows[i].kind == kind && rows[i].role == role && node->stands_for[rows[i].parent];
}

/* The union of the names and marks of the set. */
static void take_labels(struct node *node)
{
    unsigned int i;

    for (i = 0; i < row_count; i++)
        if (node->stands_for[i]) {
            node->wanted |= rows[i].wanted;
            node->excluded |= rows[i].excluded;
            node->marked |= rows[i].impossible == 1;
        }
}

/* The roles by which the set has successors, role r as the bit of weight 2^r. */
static uint32_t roles_of(const struct node *node)
{
    uint32_t roles = 0;
    unsigned int i;

    for (i = 1; i < row_count; i++)
        if (node->stands_for[rows[i].parent])
            roles |= UINT32_C(1) << rows[i].role;
    return roles;
}

/* All all-successors of the set by a role; false if there is none. */
static bool find_all(const struct node *node, unsigned int role, bool *all)
{
    bool found = false;
    unsigned int i;

    for (i = 0; i < row_count; i++) {
        all[i] = is_successor(node, i, ZUVAROPY_KIND_FORALL, role);
        found |= all[i];
    }
    return found;
}

static bool merge(unsigned int parent, unsigned int kind, unsigned int role, const bool *set);

static bool merge_role(unsigned int parent, unsigned int role)
{
    bool all[ZUVAROPY_MAX_ROWS] = {false};
    unsigned int c;

    if (find_all(&nodes[parent], role, all) && !merge(parent, ZUVAROPY_KIND_FORALL, role, all))
        return false;
    for (c = 0; c < row_count; c++)
        if (is_successor(&nodes[parent], c, ZUVAROPY_KIND_EXISTS, role)) {
            bool merged;

            all[c] = true;
            merged = merge(parent, ZUVAROPY_KIND_EXISTS, role, all);
            all[c] = false;
            if (!merged)
                return false;
        }
    return true;
}

/* A row that stands for the set, and all below it; false once there are too many. */
static bool merge(unsigned int parent, unsigned int kind, unsigned int role, const bool *set)
{
    const unsigned int n = node_count;
    unsigned int r;
    uint32_t roles;

    if (n == ZUVAROPY_MAX_ROWS)
        return false;
    node_count++;
    memset(&nodes[n], 0, sizeof nodes[n]);
    memcpy(nodes[n].stands_for, set, sizeof nodes[n].stands_for);
    nodes[n].parent = parent;
    nodes[n].kind = kind;
    nodes[n].role = role;
    take_labels(&nodes[n]);
    roles = roles_of(&nodes[n]);
    for (r = 0; r < ZUVAROPY_ROLES; r++)
        if ((roles >> r & 1) && !merge_role(n, r))
            return false;
    return true;
}

/* Breaking and dropping */

static bool hangs_from(unsigned int n, unsigned int parent)
{
    return n != 0 && nodes[n].parent == parent && !nodes[n].removed;
}

/* An inconsistent row below has become a marked one. */
static bool is_inconsistent(unsigned int n)
{
    unsigned int i;

    if (nodes[n].marked || (nodes[n].wanted & nodes[n].excluded) != 0)
        return true;
    for (i = n + 1; i < node_count; i++)
        if (hangs_from(i, n) && nodes[i].kind == ZUVAROPY_KIND_EXISTS && nodes[i].marked)
            return true;
    return false;
}

static bool has_successor(unsigned int n)
{
    unsigned int i;

    for (i = n + 1; i < node_count; i++)
        if (hangs_from(i, n))
            return true;
    return false;
}

/* A row comes before all below it, so that whole subtrees go in one pass. */
static void remove_below(unsigned int n)
{
    unsigned int i;

    for (i = n + 1; i < node_count; i++)
        if (nodes[i].parent == n || (nodes[i].parent > n && nodes[nodes[i].parent].removed))
            nodes[i].removed = true;
}

static void tidy(unsigned int n)
{
    struct node *node = &nodes[n];

    if (is_inconsistent(n)) {
        node->marked = true;
        node->wanted = 0;
        node->excluded = 0;
        remove_below(n);
    } else if (node->kind == ZUVAROPY_KIND_FORALL && node->wanted == 0 && node->excluded == 0 && !has_successor(n)) {
        node->removed = true;
    }
}

/* Writing */

static uint8_t *put(uint8_t *at, uint64_t value, unsigned int count)
{
    while (count-- > 0)
        *at++ = (uint8_t)(value >> 8 * count);
    return at;
}

static uint8_t *put_head(uint8_t *at, unsigned int tag, unsigned int length)
{
    return put(put(at, tag, ZUVAROPY_TAG_BYTES), length, ZUVAROPY_LENGTH_BYTES);
}

static uint8_t *put_row(uint8_t *at, const struct node *node, unsigned int parent)
{
    at = put_head(at, ZUVAROPY_TAG_ROW, ZUVAROPY_ROW_VALUE_BYTES);
    at = put(at, parent, ZUVAROPY_PARENT_BYTES);
    at = put(at, node->kind, ZUVAROPY_KIND_BYTES);
    at = put(at, node->role, ZUVAROPY_ROLE_BYTES);
    at = put(at, node->marked, ZUVAROPY_IMPOSSIBLE_BYTES);
    at = put(at, node->wanted, ZUVAROPY_NAME_SET_BYTES);
    return put(at, node->excluded, ZUVAROPY_NAME_SET_BYTES);
}

static void write_nodes(struct normal_reference *result)
{
    unsigned int number_of[ZUVAROPY_MAX_ROWS] = {0};
    unsigned int n, written = 0;
    uint8_t *at = result->bytes;

    for (n = 0; n < node_count; n++)
        if (!nodes[n].removed) {
            number_of[n] = written++;
            at = put_row(at, &nodes[n], number_of[nodes[n].parent]);
        }
    at = put_head(at, ZUVAROPY_TAG_END, ZUVAROPY_END_VALUE_BYTES);
    result->length = (size_t)(at - result->bytes);
}

void normal_reference(struct normal_reference *result, const uint8_t *file, size_t length)
{
    const struct reference read = reference_read(file, length);
    const bool root[ZUVAROPY_MAX_ROWS] = {true};
    unsigned int n;

    result->question = read.question;
    result->word = reference_word(&read);
    result->merged = 0;
    result->length = 0;
    if (read.question != 0)
        return;
    row_count = read.rows;
    rows_read(rows, file, row_count);
    node_count = 0;
    if (!merge(0, ZUVAROPY_KIND_ROOT, 0, root)) {
        result->question = ZUVAROPY_QUESTION_MERGED;
        result->word = (uint64_t)ZUVAROPY_QUESTION_MERGED << ZUVAROPY_QUESTION_SHIFT |
                       (uint64_t)ZUVAROPY_INPUT_FIRST << ZUVAROPY_INPUT_SHIFT;
        result->merged = ZUVAROPY_MAX_ROWS + 1;
        return;
    }
    result->merged = node_count;
    for (n = node_count; n-- > 0;)
        tidy(n);
    write_nodes(result);
    result->word = (uint64_t)ZUVAROPY_OUTCOME_YES << ZUVAROPY_OUTCOME_SHIFT | result->length;
}

void normal_reference_under(struct normal_reference *result, const uint8_t *file, size_t length)
{
    static struct picture unfolded;
    uint64_t word;

    if (reference_read(file, length).question != 0) {
        normal_reference(result, file, length);
        return;
    }
    word = reference_definitions_one(file, length);
    if (word == 0) {
        reference_unfold(&unfolded, file, length);
        normal_reference(result, unfolded.bytes, unfolded.length);
        return;
    }
    result->question = zuvaropy_question(word);
    result->word = word;
    result->merged = 0;
    result->length = 0;
}

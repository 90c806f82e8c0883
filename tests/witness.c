#include "witness.h"

#include "definitions_reference.h"
#include "normal_reference.h"
#include "rows.h"

#include <assert.h>

/* No row. In the place of a row of the first it says nothing, so that everything is an instance of it. */
#define NO_ROW ZUVAROPY_MAX_ROWS

struct table {
    unsigned int rows;
    struct row row[ZUVAROPY_MAX_ROWS + 1];
};

static struct table first, second;

static void read_normal(struct table *table, const struct picture *p)
{
    static const struct row nothing = ROOT(0, 0);
    static struct normal_reference normal;
    static struct picture unfolded;

    reference_unfold(&unfolded, p->bytes, p->length);
    normal_reference(&normal, unfolded.bytes, unfolded.length);
    assert(normal.question == 0);
    table->rows = (unsigned int)(normal.length / ZUVAROPY_ROW_BYTES);
    rows_read(table->row, normal.bytes, table->rows);
    table->row[NO_ROW] = nothing;
}

/* Maps */

static bool maps(unsigned int row, unsigned int image);

/* The lowest successor of an image that a successor's subtree can be sent to; NO_ROW if there is none. */
static unsigned int lowest(unsigned int successor, unsigned int image)
{
    const struct row *edge = &second.row[successor];
    unsigned int v;

    if (image == NO_ROW)
        return NO_ROW;
    for (v = image + 1; v < first.rows; v++)
        if (first.row[v].parent == image && first.row[v].kind == edge->kind && first.row[v].role == edge->role &&
            maps(successor, v))
            return v;
    return NO_ROW;
}

/* The first successor of the row whose subtree cannot be sent anywhere below the image; NO_ROW if there is none. */
static unsigned int missing(unsigned int row, unsigned int image)
{
    unsigned int c;

    for (c = row + 1; c < second.rows; c++)
        if (second.row[c].parent == row && lowest(c, image) == NO_ROW)
            return c;
    return NO_ROW;
}

/* Can the row's subtree be sent there? */
static bool maps(unsigned int row, unsigned int image)
{
    const struct row *from = &second.row[row], *to = &first.row[image];

    if (to->impossible)
        return true;
    return !from->impossible && (from->wanted & ~to->wanted) == 0 && (from->excluded & ~to->excluded) == 0 &&
           missing(row, image) == NO_ROW;
}

static void make_map(struct evidence *e)
{
    unsigned int images[ZUVAROPY_MAX_ROWS] = {0};
    unsigned int row, above;

    for (row = 1; row < second.rows; row++) {
        above = images[second.row[row].parent];
        images[row] = first.row[above].impossible ? above : lowest(row, above);
    }
    evidence_map(e, images, second.rows);
}

/* Refutations */

static unsigned int individuals;

static uint64_t lowest_name(uint64_t names)
{
    return names & ~(names - 1);
}

/* The value restriction by a role of a row of the first; NO_ROW if there is none. */
static unsigned int value_restriction(unsigned int row, unsigned int role)
{
    unsigned int v;

    for (v = row + 1; v < first.rows; v++)
        if (first.row[v].parent == row && first.row[v].kind == ZUVAROPY_KIND_FORALL && first.row[v].role == role)
            return v;
    return NO_ROW;
}

/* An individual, and all below it, that is an instance of a row of the first,
 * which is not impossible, and not of one of the second, unless that is NO_ROW.
 * It has the wanted names and reaches one individual for each existential
 * restriction: by merging that is enough. What makes it fail is one more name,
 * or the first successor that cannot be sent anywhere: an existential one fails
 * at all that are reached by its role, a value restriction at one more. */
static void make_individual(struct evidence *e, unsigned int parent, unsigned int role, unsigned int row,
                            unsigned int refuted)
{
    const struct row *is = &first.row[row], *is_not = &second.row[refuted];
    const uint64_t excluded = is_not->excluded & ~is->excluded;
    const bool failed = refuted == NO_ROW || is_not->impossible || (is_not->wanted & ~is->wanted) != 0;
    const unsigned int number = individuals++;
    unsigned int c, v;

    evidence_individual(e, parent, role, failed ? is->wanted : is->wanted | lowest_name(excluded));
    c = failed || excluded != 0 ? NO_ROW : missing(refuted, row);
    for (v = row + 1; v < first.rows; v++)
        if (first.row[v].parent == row && first.row[v].kind == ZUVAROPY_KIND_EXISTS) {
            const bool same = second.row[c].kind == ZUVAROPY_KIND_EXISTS && second.row[c].role == first.row[v].role;

            make_individual(e, number, first.row[v].role, v, same ? c : NO_ROW);
        }
    if (second.row[c].kind == ZUVAROPY_KIND_FORALL)
        make_individual(e, number, second.row[c].role, value_restriction(row, second.row[c].role), c);
}

bool witness_make(struct inputs *in)
{
    read_normal(&first, &in->first);
    read_normal(&second, &in->second);
    if (maps(0, 0)) {
        make_map(&in->evidence);
        return true;
    }
    evidence_clear(&in->evidence);
    individuals = 0;
    make_individual(&in->evidence, 0, 0, 0, 0);
    evidence_end(&in->evidence);
    return false;
}

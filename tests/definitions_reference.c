#include "definitions_reference.h"

#include "reference.h"
#include "rows.h"

#include <assert.h>
#include <stdbool.h>

/* A picture, or one that is being unfolded. */
struct table {
    unsigned int count;
    struct row rows[ZUVAROPY_MAX_ROWS];
};

struct definition {
    unsigned int name;
    const uint8_t *bytes; /* of its picture */
    size_t length;
    struct table table;
};

static struct definition definitions[ZUVAROPY_MAX_DEFINITIONS];
static unsigned int definition_count;

static uint64_t refusal(unsigned int question, unsigned int input, unsigned int number)
{
    return (uint64_t)question << ZUVAROPY_QUESTION_SHIFT | (uint64_t)input << ZUVAROPY_INPUT_SHIFT |
           (uint64_t)number << ZUVAROPY_CARD_SHIFT;
}

/* 25 */

/* Finds the definitions; true if the book has its form. */
static bool find_definitions(struct definitions book)
{
    size_t at = 0, length;
    struct definition *d;

    for (definition_count = 0;; definition_count++) {
        if (book.length - at < ZUVAROPY_HEAD_BYTES)
            return false;
        length = (size_t)rows_number(book.bytes + at + ZUVAROPY_TAG_BYTES, ZUVAROPY_LENGTH_BYTES);
        if (book.bytes[at] == ZUVAROPY_TAG_END)
            return length == ZUVAROPY_END_VALUE_BYTES && book.length - at == ZUVAROPY_HEAD_BYTES;
        if (book.bytes[at] != ZUVAROPY_TAG_DEFINITION || definition_count == ZUVAROPY_MAX_DEFINITIONS)
            return false;
        at += ZUVAROPY_HEAD_BYTES;
        if (length == 0 || book.length - at < length || book.bytes[at] >= ZUVAROPY_NAMES)
            return false;
        d = &definitions[definition_count];
        d->name = book.bytes[at];
        d->bytes = book.bytes + at + 1;
        d->length = length - 1;
        at += length;
    }
}

static void read_table(struct table *table, const uint8_t *picture, size_t length)
{
    table->count = (unsigned int)(length / ZUVAROPY_ROW_BYTES);
    rows_read(table->rows, picture, table->count);
}

/* 2 to 13 of the definitions, each of which is read if it can be. */
static uint64_t ask_reading(void)
{
    struct reference read;
    struct definition *d;
    unsigned int n;

    for (n = 0; n < definition_count; n++) {
        d = &definitions[n];
        read = reference_read(d->bytes, d->length);
        if (read.question != 0)
            return refusal(read.question, ZUVAROPY_INPUT_DEFINITION, n) | reference_place(&read);
        read_table(&d->table, d->bytes, d->length);
    }
    return 0;
}

/* 26 */
static bool is_name_twice(void)
{
    unsigned int n, m;

    for (n = 0; n < definition_count; n++)
        for (m = 0; m < n; m++)
            if (definitions[n].name == definitions[m].name)
                return true;
    return false;
}

/* The place of the definition of a name; definition_count if there is none. */
static unsigned int place_of(unsigned int name)
{
    unsigned int n;

    for (n = 0; n < definition_count && definitions[n].name != name; n++)
        ;
    return n;
}

/* 27 */
static unsigned int ask_excluded(const struct table *table)
{
    unsigned int n, row;

    for (n = 0; n < definition_count; n++)
        for (row = 0; row < table->count; row++)
            if ((table->rows[row].excluded & NAME(definitions[n].name)) != 0)
                return ZUVAROPY_QUESTION_EXCLUDED;
    return 0;
}

/* 28 */

static bool wants(const struct definition *d, unsigned int name)
{
    unsigned int row;

    for (row = 0; row < d->table.count; row++)
        if ((d->table.rows[row].wanted & NAME(name)) != 0)
            return true;
    return false;
}

/* Is there a definition that leads to itself, by one step or more? After turn m, chains through the first m are
 * there. */
static bool is_ring(void)
{
    static bool leads[ZUVAROPY_MAX_DEFINITIONS][ZUVAROPY_MAX_DEFINITIONS];
    unsigned int n, m, k;
    bool found = false;

    for (n = 0; n < definition_count; n++)
        for (k = 0; k < definition_count; k++)
            leads[n][k] = wants(&definitions[n], definitions[k].name);
    for (m = 0; m < definition_count; m++)
        for (n = 0; n < definition_count; n++)
            for (k = 0; k < definition_count; k++)
                leads[n][k] |= leads[n][m] && leads[m][k];
    for (n = 0; n < definition_count; n++)
        found |= leads[n][n];
    return found;
}

/* Unfolding */

/* A row takes in one definition after the other, until it wants no defined name; the set of those it took in. */
static uint64_t take_in(struct row *row)
{
    uint64_t taken = 0;
    unsigned int name, n;
    bool left = true;

    while (left) {
        left = false;
        for (name = 0; name < ZUVAROPY_NAMES; name++) {
            n = place_of(name);
            if ((row->wanted & NAME(name)) == 0 || n == definition_count)
                continue;
            row->wanted &= ~NAME(name);
            left = true;
            if ((taken & NAME(name)) == 0) {
                row->wanted |= definitions[n].table.rows[0].wanted;
                row->excluded |= definitions[n].table.rows[0].excluded;
                row->impossible |= definitions[n].table.rows[0].impossible;
            }
            taken |= NAME(name);
        }
    }
    return taken;
}

/* The rows of a definition but its root, numbered on, below a row; false if there are too many. */
static bool gain(struct table *table, unsigned int row, const struct table *definition)
{
    const unsigned int before = table->count;
    unsigned int own;

    for (own = 1; own < definition->count; own++) {
        if (table->count == ZUVAROPY_MAX_ROWS)
            return false;
        table->rows[table->count] = definition->rows[own];
        if (definition->rows[own].parent == 0)
            table->rows[table->count].parent = row;
        else
            table->rows[table->count].parent = before + definition->rows[own].parent - 1;
        table->count++;
    }
    return true;
}

/* False if there are too many rows. */
static bool unfold(struct table *table)
{
    unsigned int row, name;
    uint64_t taken;

    for (row = 0; row < table->count; row++) {
        taken = take_in(&table->rows[row]);
        for (name = 0; name < ZUVAROPY_NAMES; name++)
            if ((taken & NAME(name)) != 0 && !gain(table, row, &definitions[place_of(name)].table))
                return false;
    }
    return true;
}

/* 29 and 30 */

static unsigned int ask_rows(const struct table *table)
{
    static struct table unfolded;

    unfolded = *table;
    return unfold(&unfolded) ? 0 : ZUVAROPY_QUESTION_UNFOLDED;
}

static unsigned int ask_depth(const struct table *table)
{
    static struct table unfolded;
    unsigned int row, at, edges;

    unfolded = *table;
    unfold(&unfolded);
    for (row = 0; row < unfolded.count; row++) {
        edges = 0;
        for (at = row; at != 0; at = unfolded.rows[at].parent)
            edges++;
        if (edges > ZUVAROPY_MAX_DEPTH)
            return ZUVAROPY_QUESTION_UNFOLDED_DEPTH;
    }
    return 0;
}

/* All */

/* A question of every picture, given ones first. */
static uint64_t ask_each(unsigned int (*ask)(const struct table *), const struct given *pictures, unsigned int count)
{
    static struct table table;
    unsigned int n, question;

    for (n = 0; n < count; n++) {
        read_table(&table, pictures[n].bytes, pictures[n].length);
        question = ask(&table);
        if (question != 0)
            return refusal(question, pictures[n].input, pictures[n].card);
    }
    for (n = 0; n < definition_count; n++) {
        question = ask(&definitions[n].table);
        if (question != 0)
            return refusal(question, ZUVAROPY_INPUT_DEFINITION, n);
    }
    return 0;
}

uint64_t reference_definitions(struct definitions book, const struct given *pictures, unsigned int count)
{
    uint64_t word;

    if (!find_definitions(book))
        return refusal(ZUVAROPY_QUESTION_DEFINITIONS, ZUVAROPY_INPUT_DEFINITIONS, 0);
    word = ask_reading();
    if (word == 0 && is_name_twice())
        word = refusal(ZUVAROPY_QUESTION_DEFINED_TWICE, ZUVAROPY_INPUT_DEFINITIONS, 0);
    if (word == 0)
        word = ask_each(ask_excluded, pictures, count);
    if (word == 0 && is_ring())
        word = refusal(ZUVAROPY_QUESTION_RING, ZUVAROPY_INPUT_DEFINITIONS, 0);
    if (word == 0)
        word = ask_each(ask_rows, pictures, count);
    return word != 0 ? word : ask_each(ask_depth, pictures, count);
}

uint64_t reference_definitions_one(const uint8_t *picture, size_t length)
{
    const struct given one = {picture, length, ZUVAROPY_INPUT_FIRST, 0};

    return reference_definitions(calls_definitions(), &one, 1);
}

uint64_t reference_definitions_two(const uint8_t *first, size_t first_len, const uint8_t *second, size_t second_len)
{
    const struct given two[] = {
        {first, first_len, ZUVAROPY_INPUT_FIRST, 0},
        {second, second_len, ZUVAROPY_INPUT_SECOND, 0},
    };

    return reference_definitions(calls_definitions(), two, 2);
}

void reference_unfold(struct picture *unfolded, const uint8_t *picture, size_t length)
{
    static struct table table;
    bool read;

    read = find_definitions(calls_definitions()) && ask_reading() == 0;
    read_table(&table, picture, length);
    read = read && unfold(&table);
    assert(read);
    rows_picture(unfolded, table.rows, table.count);
}

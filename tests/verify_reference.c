#include "verify_reference.h"

#include "definitions_reference.h"
#include "normal_reference.h"
#include "reference.h"
#include "rows.h"

#include <stdbool.h>
#include <string.h>

/* The rows of a picture or of a normal table. */
struct table {
    unsigned int rows;
    struct row row[ZUVAROPY_MAX_ROWS];
};

static struct table first_picture, second_picture;
static struct table first_normal, second_normal;

static void read_table(struct table *table, const uint8_t *file, size_t length)
{
    table->rows = (unsigned int)(length / ZUVAROPY_ROW_BYTES);
    rows_read(table->row, file, table->rows);
}

/* 16: fields */

struct field {
    unsigned int tag;
    size_t length;
    const uint8_t *value;
};

/* One more than any evidence has: the individuals and the end field. */
#define FIELDS (ZUVAROPY_MAX_INDIVIDUALS + 2)

static struct field fields[FIELDS];
static unsigned int field_count;

/* Splits the file into fields, at most FIELDS of them; false if it does not end with a whole one. */
static bool read_fields(const uint8_t *file, size_t length)
{
    size_t at = 0;

    for (field_count = 0; field_count < FIELDS && at < length; field_count++) {
        struct field *field = &fields[field_count];

        if (length - at < ZUVAROPY_HEAD_BYTES)
            return false;
        field->tag = file[at];
        field->length = (size_t)rows_number(file + at + ZUVAROPY_TAG_BYTES, ZUVAROPY_LENGTH_BYTES);
        at += ZUVAROPY_HEAD_BYTES;
        if (length - at < field->length)
            return false;
        field->value = file + at;
        at += field->length;
    }
    return at == length;
}

/* Are the fields so many of this tag and length, and the end field? */
static bool are_fields(unsigned int count, unsigned int tag, size_t length)
{
    unsigned int i;

    if (field_count != count + 1)
        return false;
    for (i = 0; i < count; i++)
        if (fields[i].tag != tag || fields[i].length != length)
            return false;
    return fields[count].tag == ZUVAROPY_TAG_END && fields[count].length == ZUVAROPY_END_VALUE_BYTES;
}

static bool is_map(void)
{
    return are_fields(1, ZUVAROPY_TAG_MAP, (size_t)second_normal.rows * ZUVAROPY_IMAGE_BYTES);
}

static bool is_refutation(void)
{
    return field_count >= 2 && field_count <= ZUVAROPY_MAX_INDIVIDUALS + 1 &&
           are_fields(field_count - 1, ZUVAROPY_TAG_INDIVIDUAL, ZUVAROPY_INDIVIDUAL_VALUE_BYTES);
}

/* 17 to 20: maps */

static unsigned int image_of(unsigned int row)
{
    return (unsigned int)rows_number(fields[0].value + row * ZUVAROPY_IMAGE_BYTES, ZUVAROPY_IMAGE_BYTES);
}

static bool label_agrees(const struct row *row, const struct row *image)
{
    return image->impossible ||
           (!row->impossible && (row->wanted & ~image->wanted) == 0 && (row->excluded & ~image->excluded) == 0);
}

static bool edge_agrees(unsigned int row)
{
    const struct row *edge = &second_normal.row[row];
    const unsigned int from = image_of(edge->parent), to = image_of(row);
    const struct row *image = &first_normal.row[to];

    if (first_normal.row[from].impossible && to == from)
        return true;
    return to != 0 && image->parent == from && image->kind == edge->kind && image->role == edge->role;
}

static unsigned int ask_row(unsigned int row)
{
    const unsigned int image = image_of(row);

    if (image >= first_normal.rows)
        return ZUVAROPY_QUESTION_IMAGE;
    if (row == 0 && image != 0)
        return ZUVAROPY_QUESTION_ROOT_IMAGE;
    if (!label_agrees(&second_normal.row[row], &first_normal.row[image]))
        return ZUVAROPY_QUESTION_LABEL;
    if (row != 0 && !edge_agrees(row))
        return ZUVAROPY_QUESTION_EDGE;
    return 0;
}

/* The first question whose answer is no; 0 if there is none. */
static unsigned int ask_map(void)
{
    unsigned int row, question = 0;

    for (row = 0; row < second_normal.rows && question == 0; row++)
        question = ask_row(row);
    return question;
}

/* 21 to 23: refutations */

static struct individual {
    unsigned int parent, role;
    uint64_t names;
    unsigned int end; /* past the last individual that it reaches */
} individuals[ZUVAROPY_MAX_INDIVIDUALS];

static void read_individuals(unsigned int count)
{
    unsigned int i;

    for (i = 0; i < count; i++) {
        const uint8_t *value = fields[i].value;

        individuals[i].parent = (unsigned int)rows_number(value + ZUVAROPY_INDIVIDUAL_PARENT_AT, ZUVAROPY_PARENT_BYTES);
        individuals[i].role = value[ZUVAROPY_INDIVIDUAL_ROLE_AT];
        individuals[i].names = rows_number(value + ZUVAROPY_INDIVIDUAL_NAMES_AT, ZUVAROPY_NAME_SET_BYTES);
        individuals[i].end = i + 1;
    }
}

static bool individual_is_good(unsigned int i)
{
    if (i == 0)
        return individuals[i].parent == 0 && individuals[i].role == 0;
    return individuals[i].parent < i && individuals[i].role < ZUVAROPY_ROLES;
}

static bool is_instance(unsigned int i, const struct table *table, unsigned int row);

/* Is what the row says of the individuals that i reaches by its role so? */
static bool is_restricted(unsigned int i, const struct table *table, unsigned int row)
{
    bool some = false, all = true;
    unsigned int j;

    for (j = i + 1; j < individuals[i].end; j++)
        if (individuals[j].parent == i && individuals[j].role == table->row[row].role) {
            if (is_instance(j, table, row))
                some = true;
            else
                all = false;
        }
    return table->row[row].kind == ZUVAROPY_KIND_EXISTS ? some : all;
}

static bool is_instance(unsigned int i, const struct table *table, unsigned int row)
{
    const struct row *at = &table->row[row];
    unsigned int c;

    if (at->impossible || (at->wanted & ~individuals[i].names) != 0 || (at->excluded & individuals[i].names) != 0)
        return false;
    for (c = row + 1; c < table->rows; c++)
        if (table->row[c].parent == row && !is_restricted(i, table, c))
            return false;
    return true;
}

static unsigned int ask_refutation(void)
{
    const unsigned int count = field_count - 1;
    unsigned int i;

    read_individuals(count);
    for (i = 0; i < count; i++) {
        if (!individual_is_good(i))
            return ZUVAROPY_QUESTION_INDIVIDUAL;
        individuals[individuals[i].parent].end = i + 1;
    }
    if (!is_instance(0, &first_picture, 0))
        return ZUVAROPY_QUESTION_INSTANCE;
    if (is_instance(0, &second_picture, 0))
        return ZUVAROPY_QUESTION_REFUTED;
    return 0;
}

/* The call */

static uint64_t refusal(unsigned int input, unsigned int question)
{
    return (uint64_t)question << ZUVAROPY_QUESTION_SHIFT | (uint64_t)input << ZUVAROPY_INPUT_SHIFT;
}

static uint64_t taken(unsigned int outcome, unsigned int question)
{
    return question != 0 ? refusal(ZUVAROPY_INPUT_EVIDENCE, question) : (uint64_t)outcome << ZUVAROPY_OUTCOME_SHIFT;
}

static uint64_t ask_evidence(const uint8_t *evidence, size_t length)
{
    const bool whole = read_fields(evidence, length);

    if (whole && is_map())
        return taken(ZUVAROPY_OUTCOME_YES, ask_map());
    if (whole && is_refutation())
        return taken(ZUVAROPY_OUTCOME_NO, ask_refutation());
    return refusal(ZUVAROPY_INPUT_EVIDENCE, ZUVAROPY_QUESTION_FORM);
}

uint64_t reference_verify(const uint8_t *first, size_t first_len, const uint8_t *second, size_t second_len,
                          const uint8_t *evidence, size_t evidence_len, uint8_t *work, size_t work_len)
{
    static struct normal_reference first_table, second_table;
    static struct picture one, two;
    struct reference read;
    uint64_t word;

    if (work_len < ZUVAROPY_WORK_BYTES)
        return refusal(ZUVAROPY_INPUT_BUFFER, ZUVAROPY_QUESTION_BUFFER);
    read = reference_read(first, first_len);
    if (read.question != 0)
        return refusal(ZUVAROPY_INPUT_FIRST, read.question) | reference_place(&read);
    read = reference_read(second, second_len);
    if (read.question != 0)
        return refusal(ZUVAROPY_INPUT_SECOND, read.question) | reference_place(&read);
    word = reference_definitions_two(first, first_len, second, second_len);
    if (word != 0)
        return word;
    reference_unfold(&one, first, first_len);
    reference_unfold(&two, second, second_len);
    normal_reference(&first_table, one.bytes, one.length);
    if (first_table.question != 0)
        return refusal(ZUVAROPY_INPUT_FIRST, first_table.question);
    normal_reference(&second_table, two.bytes, two.length);
    if (second_table.question != 0)
        return refusal(ZUVAROPY_INPUT_SECOND, second_table.question);

    memset(work, 0, ZUVAROPY_WORK_BYTES);
    memcpy(work, first_table.bytes, first_table.length);
    memcpy(work + ZUVAROPY_SECOND_TABLE_AT, second_table.bytes, second_table.length);
    read_table(&first_picture, one.bytes, one.length);
    read_table(&second_picture, two.bytes, two.length);
    read_table(&first_normal, first_table.bytes, first_table.length);
    read_table(&second_normal, second_table.bytes, second_table.length);
    return ask_evidence(evidence, evidence_len);
}

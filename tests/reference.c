#include "reference.h"

#include "zuvaropy.h"

/* The field in question. Every field before it is a row that passed, so that
 * their count is the row's number; it begins where the last of them ends. */
struct field {
    const uint8_t *file;
    size_t length;
    unsigned int row;
    size_t at;
};

static const uint8_t *value_of(const struct field *f, unsigned int row)
{
    return f->file + (size_t)row * ZUVAROPY_ROW_BYTES + ZUVAROPY_HEAD_BYTES;
}

static const uint8_t *head_of(const struct field *f)
{
    return f->file + f->at;
}

static size_t bytes_left(const struct field *f)
{
    return f->length - f->at;
}

static unsigned int number(const uint8_t *two_bytes)
{
    return two_bytes[0] * 256u + two_bytes[1];
}

static unsigned int value_length(const struct field *f)
{
    return number(head_of(f) + ZUVAROPY_TAG_BYTES);
}

static int is_row(const struct field *f)
{
    return head_of(f)[0] == ZUVAROPY_TAG_ROW;
}

static int is_end(const struct field *f)
{
    return head_of(f)[0] == ZUVAROPY_TAG_END;
}

static unsigned int part(const struct field *f, unsigned int at)
{
    return value_of(f, f->row)[at];
}

static unsigned int parent_of(const struct field *f, unsigned int row)
{
    return number(value_of(f, row) + ZUVAROPY_PARENT_AT);
}

/* The questions. Each reads only bytes that those before it found there. */

static int head_is_there(const struct field *f)
{
    return bytes_left(f) >= ZUVAROPY_HEAD_BYTES;
}

static int tag_is_known(const struct field *f)
{
    return is_row(f) || is_end(f);
}

static int length_matches(const struct field *f)
{
    return value_length(f) == (is_row(f) ? ZUVAROPY_ROW_VALUE_BYTES : ZUVAROPY_END_VALUE_BYTES);
}

static int row_is_allowed(const struct field *f)
{
    return !is_row(f) || f->row < ZUVAROPY_MAX_ROWS;
}

static int value_is_there(const struct field *f)
{
    return bytes_left(f) >= ZUVAROPY_HEAD_BYTES + value_length(f);
}

static int end_has_rows(const struct field *f)
{
    return !is_end(f) || f->row > 0;
}

static int end_is_last(const struct field *f)
{
    return !is_end(f) || bytes_left(f) == ZUVAROPY_HEAD_BYTES;
}

static int kind_is_good(const struct field *f)
{
    unsigned int kind;

    if (!is_row(f))
        return 1;
    kind = part(f, ZUVAROPY_KIND_AT);
    return f->row == 0 ? kind == ZUVAROPY_KIND_ROOT : kind == ZUVAROPY_KIND_EXISTS || kind == ZUVAROPY_KIND_FORALL;
}

static int role_is_good(const struct field *f)
{
    return !is_row(f) || part(f, ZUVAROPY_ROLE_AT) < (f->row == 0 ? 1 : ZUVAROPY_ROLES);
}

static int parent_is_good(const struct field *f)
{
    return !is_row(f) || parent_of(f, f->row) < (f->row == 0 ? 1 : f->row);
}

static int depth_is_good(const struct field *f)
{
    unsigned int edges = 0, row = f->row;

    if (!is_row(f))
        return 1;
    for (; row != 0; row = parent_of(f, row))
        edges++;
    return edges <= ZUVAROPY_MAX_DEPTH;
}

static int impossible_is_good(const struct field *f)
{
    return !is_row(f) || part(f, ZUVAROPY_IMPOSSIBLE_AT) <= 1;
}

struct reference reference_read(const uint8_t *file, size_t length)
{
    static int (*const questions[])(const struct field *) = {
        head_is_there, tag_is_known, length_matches, row_is_allowed, value_is_there, end_has_rows,
        end_is_last,   kind_is_good, role_is_good,   parent_is_good, depth_is_good,  impossible_is_good,
    };
    const unsigned int count = sizeof questions / sizeof questions[0];
    struct field f = {file, length, 0, 0};
    struct reference result;
    unsigned int i;

    for (;; f.row++) {
        for (i = 0; i < count && questions[i](&f); i++)
            ;
        if (i < count || is_end(&f)) {
            result.question = i < count ? ZUVAROPY_QUESTION_HEAD + i : 0;
            result.rows = f.row;
            result.byte = f.at;
            return result;
        }
        f.at += ZUVAROPY_HEAD_BYTES + value_length(&f);
    }
}

uint64_t reference_place(const struct reference *read)
{
    return read->question == 0 ? 0 : (uint64_t)read->rows << ZUVAROPY_ROW_SHIFT | read->byte << ZUVAROPY_BYTE_SHIFT;
}

uint64_t reference_word(const struct reference *read)
{
    if (read->question == 0)
        return (uint64_t)ZUVAROPY_OUTCOME_YES << ZUVAROPY_OUTCOME_SHIFT | read->rows;
    return (uint64_t)read->question << ZUVAROPY_QUESTION_SHIFT |
           (uint64_t)ZUVAROPY_INPUT_FIRST << ZUVAROPY_INPUT_SHIFT | reference_place(read);
}

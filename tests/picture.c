#include "picture.h"

#include "calls.h"
#include "check.h"

#include <assert.h>
#include <string.h>

void picture_clear(struct picture *p)
{
    p->length = 0;
}

void picture_byte(struct picture *p, unsigned int byte)
{
    assert(p->length < sizeof p->bytes);
    p->bytes[p->length++] = (uint8_t)byte;
}

static void picture_head(struct picture *p, unsigned int tag, unsigned int length)
{
    picture_byte(p, tag);
    picture_byte(p, length >> 8);
    picture_byte(p, length & 0xFF);
}

void picture_row(struct picture *p, unsigned int parent, unsigned int kind, unsigned int role)
{
    size_t i;

    picture_head(p, ZUVAROPY_TAG_ROW, ZUVAROPY_ROW_VALUE_BYTES);
    picture_byte(p, parent >> 8);
    picture_byte(p, parent & 0xFF);
    picture_byte(p, kind);
    picture_byte(p, role);
    picture_byte(p, 0);
    for (i = 0; i < 2 * ZUVAROPY_NAME_SET_BYTES; i++)
        picture_byte(p, 0);
}

static void put_set(uint8_t *at, uint64_t set)
{
    unsigned int i;

    for (i = 0; i < ZUVAROPY_NAME_SET_BYTES; i++)
        at[i] = (uint8_t)(set >> 8 * (ZUVAROPY_NAME_SET_BYTES - 1 - i));
}

void picture_label(struct picture *p, uint64_t wanted, uint64_t excluded, unsigned int impossible)
{
    uint8_t *value = picture_value(p, picture_rows(p) - 1);

    put_set(value + ZUVAROPY_WANTED_AT, wanted);
    put_set(value + ZUVAROPY_EXCLUDED_AT, excluded);
    value[ZUVAROPY_IMPOSSIBLE_AT] = (uint8_t)impossible;
}

void picture_end(struct picture *p)
{
    picture_head(p, ZUVAROPY_TAG_END, ZUVAROPY_END_VALUE_BYTES);
}

void picture_fan(struct picture *p, unsigned int rows)
{
    unsigned int row;

    picture_clear(p);
    for (row = 0; row < rows; row++)
        picture_row(p, 0, row == 0 ? ZUVAROPY_KIND_ROOT : ZUVAROPY_KIND_EXISTS, 0);
}

void picture_chain(struct picture *p, unsigned int edges)
{
    unsigned int row;

    picture_clear(p);
    picture_row(p, 0, ZUVAROPY_KIND_ROOT, 0);
    for (row = 1; row <= edges; row++)
        picture_row(p, row - 1, ZUVAROPY_KIND_FORALL, row % ZUVAROPY_ROLES);
}

void picture_kinds(struct picture *p, unsigned int edges, unsigned int all)
{
    unsigned int row;

    picture_clear(p);
    picture_row(p, 0, ZUVAROPY_KIND_ROOT, 0);
    for (row = 1; row <= edges; row++)
        picture_row(p, row - 1, all >> (row - 1) & 1 ? ZUVAROPY_KIND_FORALL : ZUVAROPY_KIND_EXISTS, 0);
}

void picture_spread(struct picture *p, unsigned int inner, unsigned int outer)
{
    picture_chain(p, 1);
    for (; inner > 0; inner--)
        picture_row(p, 1, ZUVAROPY_KIND_EXISTS, 1);
    for (; outer > 0; outer--)
        picture_row(p, 0, ZUVAROPY_KIND_EXISTS, 1);
}

void picture_mixed(struct picture *p, unsigned int rows)
{
    unsigned int row, i;
    uint8_t *value;

    picture_chain(p, rows <= ZUVAROPY_MAX_DEPTH ? rows - 1 : ZUVAROPY_MAX_DEPTH);
    for (row = ZUVAROPY_MAX_DEPTH + 1; row < rows; row++)
        picture_row(p, row * 7 % ZUVAROPY_MAX_DEPTH, 1 + row % 2, row % ZUVAROPY_ROLES);
    for (row = 0; row < rows; row++) {
        value = picture_value(p, row);
        value[ZUVAROPY_IMPOSSIBLE_AT] = row % 3 == 1;
        for (i = ZUVAROPY_WANTED_AT; i < ZUVAROPY_ROW_VALUE_BYTES; i++)
            value[i] = (uint8_t)(row * 31 + i * 57);
    }
    picture_end(p);
}

unsigned int picture_rows(const struct picture *p)
{
    return (unsigned int)(p->length / ZUVAROPY_ROW_BYTES);
}

uint8_t *picture_field(struct picture *p, unsigned int row)
{
    return p->bytes + (size_t)row * ZUVAROPY_ROW_BYTES;
}

uint8_t *picture_value(struct picture *p, unsigned int row)
{
    return picture_field(p, row) + ZUVAROPY_HEAD_BYTES;
}

void picture_damage(struct picture *p, unsigned int row, unsigned int question)
{
    uint8_t *field = picture_field(p, row);
    uint8_t *value = picture_value(p, row);

    switch (question) {
    case ZUVAROPY_QUESTION_TAG:
        field[0] = ZUVAROPY_TAG_ROW + 1;
        break;
    case ZUVAROPY_QUESTION_LENGTH:
        field[ZUVAROPY_TAG_BYTES + 1] = ZUVAROPY_ROW_VALUE_BYTES + 1;
        break;
    case ZUVAROPY_QUESTION_KIND:
        value[ZUVAROPY_KIND_AT] = ZUVAROPY_KIND_ROOT;
        break;
    case ZUVAROPY_QUESTION_ROLE:
        value[ZUVAROPY_ROLE_AT] = ZUVAROPY_ROLES;
        break;
    case ZUVAROPY_QUESTION_PARENT:
        value[ZUVAROPY_PARENT_AT] = 0xFF;
        break;
    case ZUVAROPY_QUESTION_DEPTH:
        value[ZUVAROPY_PARENT_AT] = 0;
        value[ZUVAROPY_PARENT_AT + 1] = ZUVAROPY_MAX_DEPTH;
        break;
    case ZUVAROPY_QUESTION_IMPOSSIBLE:
        value[ZUVAROPY_IMPOSSIBLE_AT] = 2;
        break;
    default:
        assert(!"a question that a row's bytes can be damaged for");
    }
}

void picture_refused(struct picture *p, unsigned int question)
{
    picture_chain(p, ZUVAROPY_MAX_DEPTH);
    picture_row(p, 0, ZUVAROPY_KIND_EXISTS, 1);
    picture_end(p);
    switch (question) {
    case 0:
        break;
    case ZUVAROPY_QUESTION_HEAD:
        p->length--;
        break;
    case ZUVAROPY_QUESTION_ROWS:
        picture_fan(p, ZUVAROPY_MAX_ROWS + 1);
        picture_end(p);
        break;
    case ZUVAROPY_QUESTION_VALUE:
        p->length -= 1 + ZUVAROPY_HEAD_BYTES;
        break;
    case ZUVAROPY_QUESTION_NONEMPTY:
        picture_clear(p);
        picture_end(p);
        break;
    case ZUVAROPY_QUESTION_STOP:
        picture_byte(p, 0);
        break;
    case ZUVAROPY_QUESTION_MERGED:
        picture_spread(p, 15, 15);
        picture_end(p);
        break;
    default:
        picture_damage(p, ZUVAROPY_MAX_DEPTH + 1, question);
    }
}

unsigned int picture_refused_row(unsigned int question)
{
    switch (question) {
    case ZUVAROPY_QUESTION_HEAD: /* the end field is cut off, or goes on: it comes after every row */
    case ZUVAROPY_QUESTION_STOP:
        return ZUVAROPY_MAX_DEPTH + 2;
    case ZUVAROPY_QUESTION_ROWS:
        return ZUVAROPY_MAX_ROWS;
    case ZUVAROPY_QUESTION_NONEMPTY:
    case ZUVAROPY_QUESTION_MERGED:
        return 0;
    default:
        return ZUVAROPY_MAX_DEPTH + 1;
    }
}

uint64_t picture_validate(const struct picture *p)
{
    static uint8_t before[PICTURE_ROOM];
    uint64_t word;

    memcpy(before, p->bytes, sizeof before);
    word = call_validate(p->bytes, p->length);
    CHECK(memcmp(before, p->bytes, sizeof before) == 0);
    return word;
}

uint64_t word_rows(unsigned int rows)
{
    return (uint64_t)1 << 56 | rows;
}

uint64_t word_length(unsigned int rows)
{
    return (uint64_t)1 << 56 | (24 * rows + 3);
}

uint64_t word_place(unsigned int row)
{
    return (uint64_t)row << 16 | 24 * row;
}

uint64_t word_refusal(unsigned int question, unsigned int row)
{
    return (uint64_t)question << 48 | (uint64_t)1 << 40 | word_place(row);
}

uint64_t word_refused(unsigned int question)
{
    return question == 0 ? 0 : word_refusal(question, picture_refused_row(question));
}

uint64_t word_short(void)
{
    return (uint64_t)1 << 48;
}

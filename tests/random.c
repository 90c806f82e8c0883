#include "random.h"

#include <string.h>

uint64_t random_next(void)
{
    static uint64_t state = UINT64_C(0x9E3779B97F4A7C15);

    state ^= state << 13;
    state ^= state >> 7;
    state ^= state << 17;
    return state >> 16;
}

unsigned int random_below(unsigned int limit)
{
    return (unsigned int)(random_next() % limit);
}

/* A number next to one that a question compares with. */
static uint8_t random_byte_at_a_limit(void)
{
    static const uint8_t limits[] = {
        0, 1, 2, 3, ZUVAROPY_MAX_DEPTH, ZUVAROPY_TAG_ROW, ZUVAROPY_ROW_VALUE_BYTES, ZUVAROPY_ROLES, ZUVAROPY_TAG_END,
        0xFF,
    };

    return (uint8_t)(limits[random_below(sizeof limits)] + random_below(3) - 1);
}

static void insert_bytes(struct picture *p, size_t at, unsigned int count)
{
    if (p->length + count > sizeof p->bytes)
        return;
    memmove(p->bytes + at + count, p->bytes + at, p->length - at);
    p->length += count;
    while (count-- > 0)
        p->bytes[at + count] = (uint8_t)random_next();
}

static void remove_bytes(struct picture *p, size_t at, size_t count)
{
    if (count > p->length - at)
        count = p->length - at;
    memmove(p->bytes + at, p->bytes + at + count, p->length - at - count);
    p->length -= count;
}

void random_damage(struct picture *p)
{
    const unsigned int length = (unsigned int)p->length;
    const unsigned int at = random_below(length);
    const unsigned int field = at - at % ZUVAROPY_ROW_BYTES;
    const unsigned int checked = ZUVAROPY_HEAD_BYTES + ZUVAROPY_WANTED_AT;
    unsigned int i;

    switch (random_below(9)) {
    case 0:
        p->bytes[at] = (uint8_t)random_next();
        break;
    case 1:
    case 2:
    case 3:
        i = field + random_below(checked);
        p->bytes[i < length ? i : at] = random_byte_at_a_limit();
        break;
    case 4:
        p->length = at;
        break;
    case 5:
        insert_bytes(p, length, 1 + random_below(2 * ZUVAROPY_ROW_BYTES));
        break;
    case 6:
        insert_bytes(p, at, 1 + random_below(3));
        break;
    case 7:
        remove_bytes(p, at, 1 + random_below(3));
        break;
    default:
        if (random_below(2))
            remove_bytes(p, field, ZUVAROPY_ROW_BYTES);
        else if (length - field >= ZUVAROPY_HEAD_BYTES)
            memcpy(p->bytes + field, "\x2F\0\0", ZUVAROPY_HEAD_BYTES);
        break;
    }
}

struct shape random_shape(void)
{
    static const unsigned int rows[] = {3, 6, 6, 12, 12, 24, 40, ZUVAROPY_MAX_ROWS + 4};
    static const unsigned int roles[] = {1, 2, 3, 8, ZUVAROPY_ROLES};
    static const unsigned int names[] = {1, 4, 64, 64};
    static const unsigned int impossible[] = {0, 0, 0, 1, 12};
    struct shape s;

    s.rows = 1 + random_below(rows[random_below(8)]);
    s.roles = roles[random_below(5)];
    s.depth = ZUVAROPY_MAX_DEPTH + (random_below(16) == 0);
    s.all = 1 + random_below(7);
    s.deep = random_below(8);
    s.names = names[random_below(4)];
    s.named = random_below(9);
    s.impossible = impossible[random_below(5)];
    return s;
}

static uint64_t random_names(const struct shape *s)
{
    return random_below(8) < s->named ? UINT64_C(1) << random_below(s->names) : 0;
}

void random_picture(struct picture *p, const struct shape *s)
{
    unsigned int depth[ZUVAROPY_MAX_ROWS + 4] = {0};
    unsigned int row, parent;
    uint64_t names;

    picture_clear(p);
    picture_row(p, 0, ZUVAROPY_KIND_ROOT, 0);
    for (row = 1; row < s->rows; row++) {
        parent = random_below(8) < s->deep ? row - 1 : random_below(row);
        if (depth[parent] == s->depth)
            parent = 0;
        depth[row] = depth[parent] + 1;
        picture_row(p, parent, random_below(8) < s->all ? ZUVAROPY_KIND_FORALL : ZUVAROPY_KIND_EXISTS,
                    random_below(s->roles));
        names = random_names(s);
        picture_label(p, names, random_names(s), random_below(64) < s->impossible);
    }
    picture_end(p);
}

void random_change(struct picture *p, const struct shape *s)
{
    const unsigned int row = random_below(picture_rows(p)), name = random_below(s->names);
    uint8_t *value = picture_value(p, row);
    const unsigned int change = random_below(8);

    if (change < 2)
        memset(value + ZUVAROPY_WANTED_AT, 0, 2 * ZUVAROPY_NAME_SET_BYTES);
    else if (change == 2)
        value[ZUVAROPY_WANTED_AT + 7 - name / 8] ^= (uint8_t)(1 << name % 8);
    else if (change == 3)
        value[ZUVAROPY_EXCLUDED_AT + 7 - name / 8] ^= (uint8_t)(1 << name % 8);
    else if (change == 4)
        value[ZUVAROPY_IMPOSSIBLE_AT] ^= 1;
    else if (change == 5 && row > 0)
        value[ZUVAROPY_KIND_AT] ^= ZUVAROPY_KIND_EXISTS ^ ZUVAROPY_KIND_FORALL;
    else if (change == 6 && row > 0)
        value[ZUVAROPY_ROLE_AT] = (uint8_t)random_below(s->roles);
    else if (picture_rows(p) > 1) {
        p->length -= ZUVAROPY_ROW_BYTES + ZUVAROPY_HEAD_BYTES;
        picture_end(p);
    }
}

void random_reword(struct picture *p)
{
    const unsigned int row = random_below(picture_rows(p));

    if (picture_rows(p) >= ZUVAROPY_MAX_ROWS)
        return;
    p->length -= ZUVAROPY_HEAD_BYTES;
    if (row == 0) {
        picture_row(p, 0, ZUVAROPY_KIND_FORALL, random_below(ZUVAROPY_ROLES));
    } else {
        memcpy(p->bytes + p->length, picture_field(p, row), ZUVAROPY_ROW_BYTES);
        p->length += ZUVAROPY_ROW_BYTES;
        if (picture_value(p, row)[ZUVAROPY_KIND_AT] == ZUVAROPY_KIND_FORALL)
            memset(picture_value(p, row) + ZUVAROPY_EXCLUDED_AT, 0, ZUVAROPY_NAME_SET_BYTES);
    }
    picture_end(p);
}

void random_pair(struct picture *first, struct picture *second, const struct shape *s)
{
    unsigned int changes;

    random_picture(first, s);
    if (random_below(4) == 0) {
        random_picture(second, s);
        return;
    }
    *second = *first;
    for (changes = random_below(6); changes > 0; changes--)
        random_change(random_below(4) == 0 ? first : second, s);
    if (random_below(16) == 0)
        random_damage(random_below(2) ? first : second);
}

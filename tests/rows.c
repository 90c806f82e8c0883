#include "rows.h"

void rows_picture(struct picture *p, const struct row *rows, size_t count)
{
    picture_clear(p);
    for (; count-- > 0; rows++) {
        picture_row(p, rows->parent, rows->kind, rows->role);
        picture_label(p, rows->wanted, rows->excluded, rows->impossible);
    }
    picture_end(p);
}

void row_list_picture(struct picture *p, const struct row_list *list)
{
    rows_picture(p, list->rows, list->count);
}

uint64_t rows_number(const uint8_t *bytes, unsigned int count)
{
    uint64_t n = 0;

    while (count-- > 0)
        n = n * 256 + *bytes++;
    return n;
}

void rows_read(struct row *rows, const uint8_t *file, unsigned int count)
{
    unsigned int i;

    for (i = 0; i < count; i++) {
        const uint8_t *value = file + (size_t)i * ZUVAROPY_ROW_BYTES + ZUVAROPY_HEAD_BYTES;

        rows[i].parent = (unsigned int)rows_number(value + ZUVAROPY_PARENT_AT, ZUVAROPY_PARENT_BYTES);
        rows[i].kind = value[ZUVAROPY_KIND_AT];
        rows[i].role = value[ZUVAROPY_ROLE_AT];
        rows[i].impossible = value[ZUVAROPY_IMPOSSIBLE_AT];
        rows[i].wanted = rows_number(value + ZUVAROPY_WANTED_AT, ZUVAROPY_NAME_SET_BYTES);
        rows[i].excluded = rows_number(value + ZUVAROPY_EXCLUDED_AT, ZUVAROPY_NAME_SET_BYTES);
    }
}

/*
 * Validates a picture that is written here as bytes, some successor by role 8 has
 * name 0, and builds the same with zuvaropy_parts.h.
 *
 *   bytes
 *
 * Prints "a picture of N rows", or which question refused it and where; and
 * whether what was built is the same. Exits 1 if it was refused or is not.
 */

#include "zuvaropy_parts.h"

#include <inttypes.h>
#include <stdio.h>
#include <string.h>

/* The length of the picture, which is built row by row. */
static size_t build(uint8_t *bytes, size_t room)
{
    struct zuvaropy_writer writer = zuvaropy_write_to(bytes, room);
    unsigned int root, successor;

    root = zuvaropy_write_row(&writer, 0, ZUVAROPY_KIND_ROOT, 0);
    successor = zuvaropy_write_row(&writer, root, ZUVAROPY_KIND_EXISTS, 8);
    zuvaropy_write_wanted(&writer, successor, 0);
    return zuvaropy_write_end(&writer);
}

int main(void)
{
    static const uint8_t picture[ZUVAROPY_PICTURE_BYTES(2)] = {
        ZUVAROPY_TAG_ROW, 0, ZUVAROPY_ROW_VALUE_BYTES, /* row 0 */
        0, 0, ZUVAROPY_KIND_ROOT, 0, 0,                /* parent, kind, role, impossible */
        0, 0, 0, 0, 0, 0, 0, 0,                        /* wanted names */
        0, 0, 0, 0, 0, 0, 0, 0,                        /* excluded names */
        ZUVAROPY_TAG_ROW, 0, ZUVAROPY_ROW_VALUE_BYTES, /* row 1 */
        0, 0, ZUVAROPY_KIND_EXISTS, 8, 0,
        0, 0, 0, 0, 0, 0, 0, 1,
        0, 0, 0, 0, 0, 0, 0, 0,
        ZUVAROPY_TAG_END, 0, ZUVAROPY_END_VALUE_BYTES,
    };
    uint8_t built[sizeof picture];
    int same;
    uint64_t word = zuvaropy_validate(picture, sizeof picture);

    if (zuvaropy_outcome(word) == ZUVAROPY_OUTCOME_REFUSAL) {
        printf("refused %u, row %u, byte %u: %s\n", zuvaropy_question(word), zuvaropy_row(word), zuvaropy_byte(word),
               zuvaropy_question_text(zuvaropy_question(word)));
        return 1;
    }
    printf("a picture of %" PRIu32 " rows\n", zuvaropy_value(word));
    same = build(built, sizeof built) == sizeof picture && memcmp(built, picture, sizeof picture) == 0;
    printf("built row by row: %s\n", same ? "the same" : "not the same");
    return !same;
}

/*
 * zuvaropy_parts.h - building and reading the files of Zuvaropy
 *
 * zuvaropy.h lays down the bytes of pictures, evidence and books of both kinds; the
 * inline functions here write and read them. The library does not need them, and they
 * are not proved: they are tested.
 *
 * A picture is built row by row, and a book card by card, or a definitions book
 * definition by definition, in the same way:
 *
 *   static uint8_t picture[ZUVAROPY_MAX_PICTURE_BYTES];
 *   struct zuvaropy_writer writer = zuvaropy_write_to(picture, sizeof picture);
 *   unsigned int root = zuvaropy_write_row(&writer, 0, ZUVAROPY_KIND_ROOT, 0);
 *   unsigned int child = zuvaropy_write_row(&writer, root, ZUVAROPY_KIND_EXISTS, 8);
 *   zuvaropy_write_wanted(&writer, child, 3);
 *   size_t length = zuvaropy_write_end(&writer);
 *
 * It is read row by row, as are books, maps and refutations:
 *
 *   const uint8_t *row;
 *   unsigned int number;
 *   for (number = 0; (row = zuvaropy_table_row(picture, length, number)) != NULL; number++)
 *       if (zuvaropy_row_wants(row, 3))
 *           printf("row %u wants name 3\n", number);
 *
 * Rules for all of them:
 *
 *   - Nothing is read or written outside the bytes that are given, whatever they
 *     hold. NULL has no bytes, whatever the length. A writer is one that
 *     zuvaropy_write_to made, a row what zuvaropy_table_row gave, and an individual
 *     what zuvaropy_refutation_individual gave, or NULL.
 *   - What is not there is NULL or 0: a field that is cut off or of another kind, as
 *     the end field is; a part of a row or an individual that is NULL; a name that
 *     is not below ZUVAROPY_NAMES, where it is asked for (the name of a definition is
 *     given as it stands); what is above a limit of zuvaropy.h. Counts go up to the
 *     first that is not there, and so must a program: a row or an individual is
 *     looked for at its place alone. Where more bytes are given than the file has,
 *     one after its end may be what an earlier call left there.
 *   - A writer fails if it cannot write what it is told to: for want of room, at a
 *     row after ZUVAROPY_MAX_ROWS, a card after ZUVAROPY_MAX_CARDS or a definition
 *     after ZUVAROPY_MAX_DEFINITIONS, at a card or a definition whose picture has no
 *     bytes, as is given for one that failed, at a picture or a number that is too
 *     large for its field, at a name that is not below ZUVAROPY_NAMES, at names of a
 *     row that is not there, at a row, a card or a definition in a file of another
 *     kind, and at anything after the end. Then, and from then on, nothing is
 *     written, and zuvaropy_write_end gives 0: it is enough to look there.
 *   - Otherwise what is written is not judged. The calls do that, and say what they
 *     refuse and where.
 *   - Functions named zuvaropy_parts_.. serve those here, and trust what they are
 *     given.
 *
 * Contents: numbers and sets of names, writing, reading.
 */

#ifndef ZUVAROPY_PARTS_H
#define ZUVAROPY_PARTS_H

#include "zuvaropy.h"

#include <string.h>

#ifdef __cplusplus
#define ZUVAROPY_NONE nullptr
extern "C" {
#else
#define ZUVAROPY_NONE NULL
#endif

#ifdef __GNUC__
#define ZUVAROPY_MUST_USE __attribute__((warn_unused_result))
#else
#define ZUVAROPY_MUST_USE
#endif

/*
 * Numbers and sets of names
 */

/* The number that so many bytes are, the high byte first. */
static inline unsigned int zuvaropy_parts_get_number(const uint8_t *bytes, size_t count)
{
    unsigned int number = 0;
    size_t i;

    for (i = 0; i < count; i++)
        number = number << 8 | bytes[i];
    return number;
}

/* Writes a number to so many bytes: of one that does not fit, the low ones. */
static inline void zuvaropy_parts_put_number(uint8_t *bytes, size_t count, size_t number)
{
    for (; count > 0; number >>= 8)
        bytes[--count] = number & 0xFFu;
}

/* Does a number fit into so many bytes? */
static inline int zuvaropy_parts_number_fits(size_t number, size_t count)
{
    for (; count > 0; count--)
        number >>= 8;
    return number == 0;
}

/* Is a name in a set, which has ZUVAROPY_NAME_SET_BYTES? A set in a row that is NULL is not NULL: look at the row. */
static inline int zuvaropy_set_has(const uint8_t *set, unsigned int name)
{
    return set && name < ZUVAROPY_NAMES && (set[ZUVAROPY_NAME_SET_BYTES - 1 - name / 8] >> name % 8 & 1) != 0;
}

/* Puts a name into a set. Nonzero, or 0 if there is no such name or no set. */
static inline int zuvaropy_set_add(uint8_t *set, unsigned int name)
{
    uint8_t *byte;

    if (!set || name >= ZUVAROPY_NAMES)
        return 0;
    byte = set + (ZUVAROPY_NAME_SET_BYTES - 1 - name / 8);
    *byte = (*byte | 1u << name % 8) & 0xFFu;
    return 1;
}

/*
 * Writing
 */

/* Made by zuvaropy_write_to, and changed by the functions below only. */
struct zuvaropy_writer {
    uint8_t *bytes;
    size_t room;        /* how many there are */
    size_t length;      /* how many are written */
    unsigned int count; /* rows, cards or definitions that are written */
    int failed;
};

/* A writer of a new picture or book of either kind, to a buffer of so many bytes. */
static inline struct zuvaropy_writer zuvaropy_write_to(uint8_t *bytes, size_t room)
{
    struct zuvaropy_writer writer;

    writer.bytes = bytes;
    writer.room = bytes ? room : 0;
    writer.length = 0;
    writer.count = 0;
    writer.failed = 0;
    return writer;
}

/* Writes a field whose value is all zero. Where the value begins, or NULL if the writer fails or has failed. */
static inline uint8_t *zuvaropy_parts_write_field(struct zuvaropy_writer *writer, unsigned int tag, size_t value_length)
{
    const size_t left = writer->room - writer->length;
    uint8_t *field;

    if (left < ZUVAROPY_HEAD_BYTES || left - ZUVAROPY_HEAD_BYTES < value_length ||
        !zuvaropy_parts_number_fits(tag, ZUVAROPY_TAG_BYTES) ||
        !zuvaropy_parts_number_fits(value_length, ZUVAROPY_LENGTH_BYTES))
        writer->failed = 1;
    if (writer->failed)
        return ZUVAROPY_NONE;
    field = writer->bytes + writer->length;
    zuvaropy_parts_put_number(field, ZUVAROPY_TAG_BYTES, tag);
    zuvaropy_parts_put_number(field + ZUVAROPY_TAG_BYTES, ZUVAROPY_LENGTH_BYTES, value_length);
    memset(field + ZUVAROPY_HEAD_BYTES, 0, value_length);
    writer->length += ZUVAROPY_HEAD_BYTES + value_length;
    return field + ZUVAROPY_HEAD_BYTES;
}

/* The same for a file of which every field before the end has this tag, and that has at most so many. */
static inline uint8_t *zuvaropy_parts_write_item(struct zuvaropy_writer *writer, unsigned int tag, size_t value_length,
                                                 unsigned int limit)
{
    uint8_t *value;

    if (writer->count >= limit ||
        (writer->count > 0 && zuvaropy_parts_get_number(writer->bytes, ZUVAROPY_TAG_BYTES) != tag))
        writer->failed = 1;
    value = zuvaropy_parts_write_field(writer, tag, value_length);
    if (value)
        writer->count++;
    return value;
}

/* Adds a row without names. Its number, or ZUVAROPY_MAX_ROWS if the writer fails or has failed. */
static inline unsigned int zuvaropy_write_row(struct zuvaropy_writer *writer, unsigned int parent, unsigned int kind,
                                              unsigned int role)
{
    uint8_t *value;

    if (!zuvaropy_parts_number_fits(parent, ZUVAROPY_PARENT_BYTES) ||
        !zuvaropy_parts_number_fits(kind, ZUVAROPY_KIND_BYTES) ||
        !zuvaropy_parts_number_fits(role, ZUVAROPY_ROLE_BYTES))
        writer->failed = 1;
    value = zuvaropy_parts_write_item(writer, ZUVAROPY_TAG_ROW, ZUVAROPY_ROW_VALUE_BYTES, ZUVAROPY_MAX_ROWS);
    if (!value)
        return ZUVAROPY_MAX_ROWS;
    zuvaropy_parts_put_number(value + ZUVAROPY_PARENT_AT, ZUVAROPY_PARENT_BYTES, parent);
    zuvaropy_parts_put_number(value + ZUVAROPY_KIND_AT, ZUVAROPY_KIND_BYTES, kind);
    zuvaropy_parts_put_number(value + ZUVAROPY_ROLE_AT, ZUVAROPY_ROLE_BYTES, role);
    return writer->count - 1;
}

/* The value of a row that is written, or NULL if the writer fails or has failed. */
static inline uint8_t *zuvaropy_parts_written_row(struct zuvaropy_writer *writer, unsigned int row)
{
    const size_t before = row;

    if (row >= writer->count || zuvaropy_parts_get_number(writer->bytes, ZUVAROPY_TAG_BYTES) != ZUVAROPY_TAG_ROW)
        writer->failed = 1;
    if (writer->failed)
        return ZUVAROPY_NONE;
    return writer->bytes + before * ZUVAROPY_ROW_BYTES + ZUVAROPY_HEAD_BYTES;
}

/* Says that instances of a row have a name; that they have not. */
static inline void zuvaropy_write_wanted(struct zuvaropy_writer *writer, unsigned int row, unsigned int name)
{
    uint8_t *value = zuvaropy_parts_written_row(writer, row);

    writer->failed = !value || !zuvaropy_set_add(value + ZUVAROPY_WANTED_AT, name);
}
static inline void zuvaropy_write_excluded(struct zuvaropy_writer *writer, unsigned int row, unsigned int name)
{
    uint8_t *value = zuvaropy_parts_written_row(writer, row);

    writer->failed = !value || !zuvaropy_set_add(value + ZUVAROPY_EXCLUDED_AT, name);
}

/* Says that nothing is an instance of a row. */
static inline void zuvaropy_write_impossible(struct zuvaropy_writer *writer, unsigned int row)
{
    uint8_t *value = zuvaropy_parts_written_row(writer, row);

    if (value)
        zuvaropy_parts_put_number(value + ZUVAROPY_IMPOSSIBLE_AT, ZUVAROPY_IMPOSSIBLE_BYTES, 1);
}

/* Adds a field with a picture from so many bytes of its value on. Where the value begins, as above. */
static inline uint8_t *zuvaropy_parts_write_picture(struct zuvaropy_writer *writer, unsigned int tag, size_t before,
                                                    const uint8_t *picture, size_t length, unsigned int limit)
{
    uint8_t *value;

    if (!picture || length == 0 || !zuvaropy_parts_number_fits(length, ZUVAROPY_LENGTH_BYTES))
        writer->failed = 1;
    value = zuvaropy_parts_write_item(writer, tag, before + length, limit);
    if (value)
        memcpy(value + before, picture, length);
    return value;
}

/* Adds a card: the bytes of a picture, from another buffer. Its number, or ZUVAROPY_MAX_CARDS if the writer fails or
 * has failed. */
static inline unsigned int zuvaropy_write_card(struct zuvaropy_writer *writer, const uint8_t *picture, size_t length)
{
    if (!zuvaropy_parts_write_picture(writer, ZUVAROPY_TAG_CARD, 0, picture, length, ZUVAROPY_MAX_CARDS))
        return ZUVAROPY_MAX_CARDS;
    return writer->count - 1;
}

/* Adds a definition: a name, and the bytes of its picture, from another buffer. Its number, or
 * ZUVAROPY_MAX_DEFINITIONS if the writer fails or has failed. */
static inline unsigned int zuvaropy_write_definition(struct zuvaropy_writer *writer, unsigned int name,
                                                     const uint8_t *picture, size_t length)
{
    uint8_t *value;

    if (name >= ZUVAROPY_NAMES)
        writer->failed = 1;
    value = zuvaropy_parts_write_picture(writer, ZUVAROPY_TAG_DEFINITION, ZUVAROPY_DEFINITION_PICTURE_AT, picture,
                                         length, ZUVAROPY_MAX_DEFINITIONS);
    if (!value)
        return ZUVAROPY_MAX_DEFINITIONS;
    zuvaropy_parts_put_number(value + ZUVAROPY_DEFINED_AT, ZUVAROPY_DEFINED_BYTES, name);
    return writer->count - 1;
}

/* Adds the end field. The length of the whole, or 0 if the writer fails or has failed. */
ZUVAROPY_MUST_USE
static inline size_t zuvaropy_write_end(struct zuvaropy_writer *writer)
{
    if (!zuvaropy_parts_write_field(writer, ZUVAROPY_TAG_END, ZUVAROPY_END_VALUE_BYTES))
        return 0;
    writer->room = writer->length; /* so that nothing comes after it, */
    writer->count = 0;             /* and no row is changed */
    return writer->length;
}

/*
 * Reading
 */

/* The bytes of the field that bytes begin with; 0 if it is not whole or has another tag. */
static inline size_t zuvaropy_parts_field_bytes(const uint8_t *bytes, size_t length, unsigned int tag)
{
    size_t value_length;

    if (!bytes || length < ZUVAROPY_HEAD_BYTES || zuvaropy_parts_get_number(bytes, ZUVAROPY_TAG_BYTES) != tag)
        return 0;
    value_length = zuvaropy_parts_get_number(bytes + ZUVAROPY_TAG_BYTES, ZUVAROPY_LENGTH_BYTES);
    return length - ZUVAROPY_HEAD_BYTES < value_length ? 0 : ZUVAROPY_HEAD_BYTES + value_length;
}

/* A number in a value, from this byte on. */
static inline unsigned int zuvaropy_parts_get_part(const uint8_t *value, size_t at, size_t count)
{
    return value ? zuvaropy_parts_get_number(value + at, count) : 0;
}

/* The value of a field by its number, where all have so many bytes, or NULL if it has another tag or length. */
static inline const uint8_t *zuvaropy_parts_field_value(const uint8_t *file, size_t length, unsigned int tag,
                                                        size_t field_bytes, unsigned int number)
{
    const size_t before = number * field_bytes;

    if (!file || length < before || zuvaropy_parts_field_bytes(file + before, length - before, tag) != field_bytes)
        return ZUVAROPY_NONE;
    return file + before + ZUVAROPY_HEAD_BYTES;
}

/* How many fields with this tag and of so many bytes a file begins with, up to a limit. */
static inline unsigned int zuvaropy_parts_count_fields(const uint8_t *file, size_t length, unsigned int tag,
                                                       size_t field_bytes, unsigned int limit)
{
    unsigned int count = 0;

    while (count < limit && zuvaropy_parts_field_value(file, length, tag, field_bytes, count))
        count++;
    return count;
}

/*
 * Tables: pictures, normal tables, common pictures. So many bytes may be more than
 * the table has. After a call on two pictures there is one in each half of the
 * work space: give ZUVAROPY_MAX_PICTURE_BYTES as the length, and work or
 * work + ZUVAROPY_SECOND_TABLE_AT. To give it to a call, copy it from there; its own
 * length is ZUVAROPY_PICTURE_BYTES(rows).
 */

/* The number of rows. */
static inline unsigned int zuvaropy_table_rows(const uint8_t *table, size_t length)
{
    return zuvaropy_parts_count_fields(table, length, ZUVAROPY_TAG_ROW, ZUVAROPY_ROW_BYTES, ZUVAROPY_MAX_ROWS);
}

/* A row, for the functions below, or NULL. */
static inline const uint8_t *zuvaropy_table_row(const uint8_t *table, size_t length, unsigned int row)
{
    if (row >= ZUVAROPY_MAX_ROWS)
        return ZUVAROPY_NONE;
    return zuvaropy_parts_field_value(table, length, ZUVAROPY_TAG_ROW, ZUVAROPY_ROW_BYTES, row);
}

/* The parts of a row. The kind is one of ZUVAROPY_KIND_...; the mark is nonzero if nothing is an instance. */
static inline unsigned int zuvaropy_row_parent(const uint8_t *row)
{
    return zuvaropy_parts_get_part(row, ZUVAROPY_PARENT_AT, ZUVAROPY_PARENT_BYTES);
}
static inline unsigned int zuvaropy_row_kind(const uint8_t *row)
{
    return zuvaropy_parts_get_part(row, ZUVAROPY_KIND_AT, ZUVAROPY_KIND_BYTES);
}
static inline unsigned int zuvaropy_row_role(const uint8_t *row)
{
    return zuvaropy_parts_get_part(row, ZUVAROPY_ROLE_AT, ZUVAROPY_ROLE_BYTES);
}
static inline unsigned int zuvaropy_row_impossible(const uint8_t *row)
{
    return zuvaropy_parts_get_part(row, ZUVAROPY_IMPOSSIBLE_AT, ZUVAROPY_IMPOSSIBLE_BYTES);
}
static inline int zuvaropy_row_wants(const uint8_t *row, unsigned int name)
{
    return row && zuvaropy_set_has(row + ZUVAROPY_WANTED_AT, name);
}
static inline int zuvaropy_row_excludes(const uint8_t *row, unsigned int name)
{
    return row && zuvaropy_set_has(row + ZUVAROPY_EXCLUDED_AT, name);
}

/*
 * Evidence: a refutation has no images, and a map no individuals.
 */

/* The number of whole images in a map; of one that zuvaropy_verify takes, that of the rows of the second normal table.
 * The end field is not looked at. */
static inline unsigned int zuvaropy_map_images(const uint8_t *map, size_t length)
{
    unsigned int images = 0;

    if (zuvaropy_parts_field_bytes(map, length, ZUVAROPY_TAG_MAP) > 0)
        images = zuvaropy_parts_get_number(map + ZUVAROPY_TAG_BYTES, ZUVAROPY_LENGTH_BYTES) / ZUVAROPY_IMAGE_BYTES;
    return images < ZUVAROPY_MAX_ROWS ? images : ZUVAROPY_MAX_ROWS;
}

/* The row of the first normal table that a row of the second goes to. */
static inline unsigned int zuvaropy_map_image(const uint8_t *map, size_t length, unsigned int row)
{
    const size_t before = row;

    if (row >= zuvaropy_map_images(map, length))
        return 0;
    return zuvaropy_parts_get_number(map + ZUVAROPY_HEAD_BYTES + before * ZUVAROPY_IMAGE_BYTES, ZUVAROPY_IMAGE_BYTES);
}

/* The number of individuals in a refutation. */
static inline unsigned int zuvaropy_refutation_individuals(const uint8_t *refutation, size_t length)
{
    return zuvaropy_parts_count_fields(refutation, length, ZUVAROPY_TAG_INDIVIDUAL, ZUVAROPY_INDIVIDUAL_BYTES,
                                       ZUVAROPY_MAX_INDIVIDUALS);
}

/* An individual, for the functions below, or NULL. */
static inline const uint8_t *zuvaropy_refutation_individual(const uint8_t *refutation, size_t length,
                                                            unsigned int individual)
{
    if (individual >= ZUVAROPY_MAX_INDIVIDUALS)
        return ZUVAROPY_NONE;
    return zuvaropy_parts_field_value(refutation, length, ZUVAROPY_TAG_INDIVIDUAL, ZUVAROPY_INDIVIDUAL_BYTES,
                                      individual);
}

/* The parts of an individual. The role is the one by which its parent reaches it. */
static inline unsigned int zuvaropy_individual_parent(const uint8_t *individual)
{
    return zuvaropy_parts_get_part(individual, ZUVAROPY_INDIVIDUAL_PARENT_AT, ZUVAROPY_PARENT_BYTES);
}
static inline unsigned int zuvaropy_individual_role(const uint8_t *individual)
{
    return zuvaropy_parts_get_part(individual, ZUVAROPY_INDIVIDUAL_ROLE_AT, ZUVAROPY_ROLE_BYTES);
}
static inline int zuvaropy_individual_has(const uint8_t *individual, unsigned int name)
{
    return individual && zuvaropy_set_has(individual + ZUVAROPY_INDIVIDUAL_NAMES_AT, name);
}

/*
 * Books of both kinds
 */

/* The value of a field by its number, where all have this tag and there are at most so many, and its length; or NULL
 * and 0. */
static inline const uint8_t *zuvaropy_parts_book_value(const uint8_t *book, size_t length, unsigned int tag,
                                                       unsigned int limit, unsigned int number, size_t *value_length)
{
    size_t field = zuvaropy_parts_field_bytes(book, length, tag);
    unsigned int before;

    for (before = 0; before < number && field > 0; before++) {
        book += field;
        length -= field;
        field = zuvaropy_parts_field_bytes(book, length, tag);
    }
    *value_length = 0;
    if (field == 0 || number >= limit)
        return ZUVAROPY_NONE;
    *value_length = field - ZUVAROPY_HEAD_BYTES;
    return book + ZUVAROPY_HEAD_BYTES;
}

/* The bytes of a card, which are those of a picture, and their number, for which there has to be a place; or NULL and
 * 0. */
static inline const uint8_t *zuvaropy_book_card(const uint8_t *book, size_t length, unsigned int card,
                                                size_t *card_length)
{
    return zuvaropy_parts_book_value(book, length, ZUVAROPY_TAG_CARD, ZUVAROPY_MAX_CARDS, card, card_length);
}

/* The number of cards. */
static inline unsigned int zuvaropy_book_cards(const uint8_t *book, size_t length)
{
    unsigned int count = 0;
    size_t card_length;

    while (zuvaropy_book_card(book, length, count, &card_length))
        count++;
    return count;
}

/* The bytes of the picture of a definition, with the name that it defines and the number of the bytes, for which there
 * have to be places; or NULL, 0 and 0. The name is not judged: it may be any byte, and question 25 refuses one that is
 * not below ZUVAROPY_NAMES. */
static inline const uint8_t *zuvaropy_book_definition(const uint8_t *book, size_t length, unsigned int definition,
                                                      unsigned int *name, size_t *picture_length)
{
    const uint8_t *value = zuvaropy_parts_book_value(book, length, ZUVAROPY_TAG_DEFINITION, ZUVAROPY_MAX_DEFINITIONS,
                                                     definition, picture_length);

    *name = 0;
    if (*picture_length < ZUVAROPY_DEFINITION_PICTURE_AT) /* there is no name */
        return ZUVAROPY_NONE;
    *name = zuvaropy_parts_get_part(value, ZUVAROPY_DEFINED_AT, ZUVAROPY_DEFINED_BYTES);
    *picture_length -= ZUVAROPY_DEFINITION_PICTURE_AT;
    return value + ZUVAROPY_DEFINITION_PICTURE_AT;
}

/* The number of definitions. */
static inline unsigned int zuvaropy_book_definitions(const uint8_t *book, size_t length)
{
    unsigned int count = 0, name;
    size_t picture_length;

    while (zuvaropy_book_definition(book, length, count, &name, &picture_length))
        count++;
    return count;
}

#ifdef __cplusplus
}
#endif

#undef ZUVAROPY_MUST_USE
#undef ZUVAROPY_NONE

#endif

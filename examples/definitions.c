/*
 * Looks a vehicle up in a book of two cards that want a defined name, "belt side
 * fault": without its definition, with it, and with definitions that are a ring.
 *
 *   definitions
 *
 * Needs no files. Prints each card's normal table in words, in which definitions are
 * unfolded, and the most specific cards; or which question refused what. Exits 1 if
 * something is refused but the ring, or the ring is not.
 */

#include "show.h"

#include <stdio.h>

enum { ROOT = ZUVAROPY_KIND_ROOT, SOME = ZUVAROPY_KIND_EXISTS };
enum { VEHICLE, LOOP, CLIP, CONNECTOR }; /* roles; a root has role 0 */
enum { BELT_FAULT, FIRING, OPEN, CORRODED, SEATED, BELT_SIDE_FAULT, NO_NAME = ZUVAROPY_NAMES };

static const char *const roles[] = {"vehicle", "some loop", "some clip", "some connector"};
static const char *const names[] = {"belt fault", "firing", "open", "corroded", "seated", "belt side fault"};

/* A row that hangs from row 0, or is it: at most two names that it wants, and one that it excludes. */
struct row {
    unsigned int kind, role, wanted, also_wanted, excluded;
};

/* The definition, the two cards, and the vehicle, which says nothing of a belt side fault. */
static const struct row side_fault[] = {{ROOT, VEHICLE, BELT_FAULT, NO_NAME, NO_NAME},
                                        {SOME, LOOP, FIRING, OPEN, NO_NAME}};
static const struct row bad_connector[] = {{ROOT, VEHICLE, BELT_SIDE_FAULT, NO_NAME, NO_NAME},
                                           {SOME, CONNECTOR, CORRODED, NO_NAME, NO_NAME}};
static const struct row loose_clip[] = {{ROOT, VEHICLE, BELT_SIDE_FAULT, NO_NAME, NO_NAME},
                                        {SOME, CLIP, NO_NAME, NO_NAME, SEATED}};
static const struct row vehicle[] = {{ROOT, VEHICLE, BELT_FAULT, NO_NAME, NO_NAME},
                                     {SOME, CONNECTOR, CORRODED, NO_NAME, NO_NAME},
                                     {SOME, LOOP, FIRING, OPEN, NO_NAME}};
#define ROWS(list) list, sizeof list / sizeof list[0]

/* A picture, and what is lent to the calls. */
static uint8_t picture[ZUVAROPY_MAX_PICTURE_BYTES], the_case[ZUVAROPY_MAX_PICTURE_BYTES];
static uint8_t book[ZUVAROPY_MAX_BOOK_BYTES], definitions[ZUVAROPY_MAX_DEFINITIONS_BYTES];
static uint8_t work[ZUVAROPY_WORK_BYTES], table[ZUVAROPY_MAX_PICTURE_BYTES];
static size_t case_length, book_length;

static size_t write_picture(uint8_t *bytes, const struct row *rows, size_t count)
{
    struct zuvaropy_writer writer = zuvaropy_write_to(bytes, ZUVAROPY_MAX_PICTURE_BYTES);
    unsigned int i;

    for (i = 0; i < count; i++) {
        zuvaropy_write_row(&writer, 0, rows[i].kind, rows[i].role);
        if (rows[i].wanted != NO_NAME)
            zuvaropy_write_wanted(&writer, i, rows[i].wanted);
        if (rows[i].also_wanted != NO_NAME)
            zuvaropy_write_wanted(&writer, i, rows[i].also_wanted);
        if (rows[i].excluded != NO_NAME)
            zuvaropy_write_excluded(&writer, i, rows[i].excluded);
    }
    return zuvaropy_write_end(&writer);
}

static void write_cards(void)
{
    struct zuvaropy_writer writer = zuvaropy_write_to(book, sizeof book);

    zuvaropy_write_card(&writer, picture, write_picture(picture, ROWS(bad_connector)));
    zuvaropy_write_card(&writer, picture, write_picture(picture, ROWS(loose_clip)));
    book_length = zuvaropy_write_end(&writer);
}

/* The length of a definitions book: what a belt side fault is and, for a ring, what a belt fault is, by a picture that
 * wants a belt side fault. */
static size_t write_definitions(int ring)
{
    struct zuvaropy_writer writer = zuvaropy_write_to(definitions, sizeof definitions);

    zuvaropy_write_definition(&writer, BELT_SIDE_FAULT, picture, write_picture(picture, ROWS(side_fault)));
    if (ring)
        zuvaropy_write_definition(&writer, BELT_FAULT, picture, write_picture(picture, ROWS(loose_clip)));
    return zuvaropy_write_end(&writer);
}

static void print_table(size_t length)
{
    const uint8_t *row;
    unsigned int number, name;

    for (number = 0; (row = zuvaropy_table_row(table, length, number)) != NULL; number++) {
        printf("    %s", roles[zuvaropy_row_role(row)]);
        for (name = 0; name < sizeof names / sizeof names[0]; name++)
            if (zuvaropy_row_wants(row, name) || zuvaropy_row_excludes(row, name))
                printf(", %s%s", zuvaropy_row_excludes(row, name) ? "not " : "", names[name]);
        printf("\n");
    }
}

/* Nonzero if something is refused. */
static int look(const uint8_t *under, size_t under_length)
{
    const uint8_t *card;
    unsigned int number;
    size_t length;
    uint64_t found = zuvaropy_most_specific(under, under_length, the_case, case_length, book, book_length, work,
                                            sizeof work);

    if (show_refused(found))
        return 1;
    for (number = 0; (card = zuvaropy_book_card(book, book_length, number, &length)) != NULL; number++) {
        uint64_t word = zuvaropy_normalize(under, under_length, card, length, table, sizeof table);

        printf("card %u%s\n", number, zuvaropy_value(found) >> number & 1 ? ", found" : "");
        print_table(zuvaropy_value(word));
    }
    return 0;
}

int main(void)
{
    int refused;

    case_length = write_picture(the_case, ROWS(vehicle));
    write_cards();
    printf("without the definition:\n");
    refused = look(ZUVAROPY_NO_DEFINITIONS);
    printf("with the definition:\n");
    refused = look(definitions, write_definitions(0)) || refused;
    printf("with a ring of definitions:\n");
    return !look(definitions, write_definitions(1)) || refused;
}

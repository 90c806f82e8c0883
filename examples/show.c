#include "show.h"

#include <stdio.h>

int show_read(const char *name, uint8_t *bytes, size_t room, size_t *length)
{
    int unread;
    FILE *file = fopen(name, "rb");

    if (file == NULL) {
        perror(name);
        return -1;
    }
    *length = fread(bytes, 1, room, file);
    unread = ferror(file);
    fclose(file);
    if (unread) {
        fprintf(stderr, "%s: cannot be read\n", name);
        return -1;
    }
    return 0;
}

int show_read_definitions(const char *name, uint8_t *bytes, size_t room, size_t *length)
{
    struct zuvaropy_writer writer = zuvaropy_write_to(bytes, room);

    if (name != NULL)
        return show_read(name, bytes, room, length);
    *length = zuvaropy_write_end(&writer);
    return 0;
}

int show_refused(uint64_t word)
{
    const unsigned int question = zuvaropy_question(word), input = zuvaropy_input(word);

    if (zuvaropy_outcome(word) != ZUVAROPY_OUTCOME_REFUSAL)
        return 0;
    printf("refused %u, %s", question, zuvaropy_input_text(input));
    if (input == ZUVAROPY_INPUT_CARD)
        printf(" %u", zuvaropy_card(word));
    if (input == ZUVAROPY_INPUT_DEFINITION)
        printf(" %u", zuvaropy_definition(word));
    if (zuvaropy_has_place(word))
        printf(", row %u, byte %u", zuvaropy_row(word), zuvaropy_byte(word));
    printf(": %s\n", zuvaropy_question_text(question));
    return 1;
}

void show_count(const char *what, unsigned int count, const char *of)
{
    printf("%s of %u %s%s", what, count, of, count == 1 ? "" : "s");
}

/* The numbers of the names of a set, if there are any. */
static void show_names(const char *what, const uint8_t *set)
{
    unsigned int name, shown = 0;

    for (name = 0; name < ZUVAROPY_NAMES; name++)
        if (zuvaropy_set_has(set, name))
            printf("%s %u", shown++ == 0 ? what : "", name);
}

void show_row(const uint8_t *table, size_t length, unsigned int row)
{
    const uint8_t *value = zuvaropy_table_row(table, length, row);

    if (value == NULL)
        return;
    printf("row %u: ", row);
    if (zuvaropy_row_kind(value) == ZUVAROPY_KIND_ROOT)
        printf("root");
    else
        printf("%s %u below row %u", zuvaropy_row_kind(value) == ZUVAROPY_KIND_FORALL ? "all" : "some",
               zuvaropy_row_role(value), zuvaropy_row_parent(value));
    show_names("; wanted", value + ZUVAROPY_WANTED_AT);
    show_names("; excluded", value + ZUVAROPY_EXCLUDED_AT);
    printf("%s\n", zuvaropy_row_impossible(value) ? "; impossible" : "");
}

void show_rows(const uint8_t *table, size_t length)
{
    unsigned int row;

    for (row = 0; zuvaropy_table_row(table, length, row) != NULL; row++) {
        printf("  ");
        show_row(table, length, row);
    }
}

void show_individuals(const uint8_t *refutation, size_t length)
{
    const uint8_t *individual;
    unsigned int number;

    for (number = 0; (individual = zuvaropy_refutation_individual(refutation, length, number)) != NULL; number++) {
        printf("  individual %u: ", number);
        if (number == 0)
            printf("root");
        else
            printf("by role %u from individual %u", zuvaropy_individual_role(individual),
                   zuvaropy_individual_parent(individual));
        show_names("; has", individual + ZUVAROPY_INDIVIDUAL_NAMES_AT);
        printf("\n");
    }
}

void show_evidence(const uint8_t *evidence, size_t length)
{
    const unsigned int images = zuvaropy_map_images(evidence, length);

    if (images > 0)
        show_count("a map", images, "row");
    else
        show_count("a refutation", zuvaropy_refutation_individuals(evidence, length), "individual");
}

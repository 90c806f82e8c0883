/* Looks a vehicle up in a book of cards, says in words which subsume it and why, and shows a refusal at the end. */
#include <zuvaropy_parts.h>
#include <stdio.h>
enum { ROOT = ZUVAROPY_KIND_ROOT, SOME = ZUVAROPY_KIND_EXISTS, ALL = ZUVAROPY_KIND_FORALL };
enum { VEHICLE, LOOP, CLIP, CONNECTOR }; /* roles; a root has role 0 */
enum { BELT_FAULT = 1, FIRING = 2, OPEN = 4, CORRODED = 8, SEATED = 16 }; /* name n is 2^n: sets are sums */
static const char *const kinds[] = {"", "some ", "all "}, *const roles[] = {"vehicle", "loop", "clip", "connector"};
static const char *const names[] = {"belt fault", "firing", "open", "corroded", "seated"};
#define WORD(words, n) ((n) < sizeof words / sizeof words[0] ? words[n] : "unknown")
/* A row of a picture. The first is the vehicle; the others are parts, each of an earlier row. */
struct row { unsigned int parent, kind, role; uint64_t wanted, excluded; };
static const struct row vehicle[] = {{0, ROOT, VEHICLE, BELT_FAULT, 0}, {0, SOME, CLIP, 0, 0},
    {0, ALL, CLIP, SEATED, 0}, {0, SOME, LOOP, FIRING | OPEN, 0}, {3, SOME, CONNECTOR, CORRODED, 0}};
static const struct row open_loop[] = {{0, ROOT, VEHICLE, 0, 0}, {0, SOME, LOOP, OPEN, 0}};
static const struct row bad_connector[] = {{0, ROOT, VEHICLE, BELT_FAULT, 0}, {0, SOME, LOOP, OPEN, 0},
    {1, SOME, CONNECTOR, CORRODED, 0}};
static const struct row loose_clip[] = {{0, ROOT, VEHICLE, 0, 0}, {0, SOME, CLIP, 0, SEATED}};
static uint8_t the_case[ZUVAROPY_MAX_PICTURE_BYTES], card[ZUVAROPY_MAX_PICTURE_BYTES], book[ZUVAROPY_MAX_BOOK_BYTES];
static uint8_t work[ZUVAROPY_WORK_BYTES], evidence[ZUVAROPY_MAX_EVIDENCE_BYTES];
#define LENT(buffer) buffer, sizeof buffer
#define ROWS(list) list, sizeof list / sizeof list[0]

static size_t write_picture(uint8_t *picture, const struct row *rows, size_t count)
{
    struct zuvaropy_writer writer = zuvaropy_write_to(picture, ZUVAROPY_MAX_PICTURE_BYTES);
    for (unsigned int i = 0; i < count; i++) {
        zuvaropy_write_row(&writer, rows[i].parent, rows[i].kind, rows[i].role);
        for (unsigned int name = 0; name < ZUVAROPY_NAMES; name++) {
            if (rows[i].wanted >> name & 1)
                zuvaropy_write_wanted(&writer, i, name);
            if (rows[i].excluded >> name & 1)
                zuvaropy_write_excluded(&writer, i, name);
        }
    }
    return zuvaropy_write_end(&writer); /* 0 if it cannot be written, as of a book: the calls refuse that */
}

static void print_names(const char *before, const uint8_t *value, size_t set_at)
{
    for (unsigned int name = 0; value != NULL && name < ZUVAROPY_NAMES; name++)
        if (zuvaropy_set_has(value + set_at, name))
            printf("%s%s", before, WORD(names, name));
}

static void print_row(const char *before, const uint8_t *table, unsigned int number)
{
    const uint8_t *row = zuvaropy_table_row(table, ZUVAROPY_MAX_PICTURE_BYTES, number);
    printf("%s%s%s", before, WORD(kinds, zuvaropy_row_kind(row)), WORD(roles, zuvaropy_row_role(row)));
    print_names(", ", row, ZUVAROPY_WANTED_AT);
    print_names(", not ", row, ZUVAROPY_EXCLUDED_AT);
    printf("%s", zuvaropy_row_impossible(row) ? ", impossible" : "");
}

/* Of a map each row of the card and the row of the case that it goes to; of a refutation its individuals. */
static void print_evidence(size_t length)
{
    for (unsigned int row = 0; row < zuvaropy_map_images(evidence, length); row++) {
        print_row("\n    ", work + ZUVAROPY_SECOND_TABLE_AT, row);
        print_row(" -> ", work, zuvaropy_map_image(evidence, length, row));
    }
    const uint8_t *individual;
    for (unsigned int i = 0; (individual = zuvaropy_refutation_individual(evidence, length, i)) != NULL; i++) {
        printf("\n    %u: %s", i, WORD(roles, zuvaropy_individual_role(individual)));
        if (i > 0)
            printf(" of %u", zuvaropy_individual_parent(individual));
        print_names(", ", individual, ZUVAROPY_INDIVIDUAL_NAMES_AT);
    }
    printf("\n");
}

static int refused(uint64_t word)
{
    if (zuvaropy_outcome(word) != ZUVAROPY_OUTCOME_REFUSAL)
        return 0;
    printf("refused %u, %s", zuvaropy_question(word), zuvaropy_input_text(zuvaropy_input(word)));
    if (zuvaropy_input(word) == ZUVAROPY_INPUT_CARD || zuvaropy_input(word) == ZUVAROPY_INPUT_DEFINITION)
        printf(" %u", zuvaropy_card(word) + zuvaropy_definition(word)); /* the other one is 0 */
    if (zuvaropy_has_place(word))
        printf(", row %u, byte %u", zuvaropy_row(word), zuvaropy_byte(word));
    printf(": %s\n", zuvaropy_question_text(zuvaropy_question(word)));
    return 1;
}

int main(void)
{
    struct zuvaropy_writer writer = zuvaropy_write_to(LENT(book));
    zuvaropy_write_card(&writer, card, write_picture(card, ROWS(open_loop)));
    zuvaropy_write_card(&writer, card, write_picture(card, ROWS(bad_connector)));
    zuvaropy_write_card(&writer, card, write_picture(card, ROWS(loose_clip)));
    size_t len, case_len = write_picture(the_case, ROWS(vehicle)), book_len = zuvaropy_write_end(&writer);
    uint64_t found = zuvaropy_most_specific(ZUVAROPY_NO_DEFINITIONS, the_case, case_len, book, book_len, LENT(work));
    if (refused(found))
        return 1;
    const uint8_t *one;
    for (unsigned int i = 0; (one = zuvaropy_book_card(book, book_len, i, &len)) != NULL; i++) {
        uint64_t word = zuvaropy_subsumes(ZUVAROPY_NO_DEFINITIONS, the_case, case_len, one, len, LENT(work),
                                          LENT(evidence));
        uint64_t checked = zuvaropy_verify(ZUVAROPY_NO_DEFINITIONS, the_case, case_len, one, len, evidence,
                                           zuvaropy_value(word), LENT(work));
        if (refused(word) || refused(checked))
            return 1;
        printf("card %u %s", i, zuvaropy_outcome(checked) == ZUVAROPY_OUTCOME_YES ? "subsumes" : "does not subsume");
        printf(" the vehicle%s", zuvaropy_value(found) >> i & 1 ? ", as a most specific card" : "");
        if (zuvaropy_row_impossible(zuvaropy_table_row(work, ZUVAROPY_MAX_PICTURE_BYTES, 0)))
            printf(", but nothing is such a vehicle: it contradicts itself, and every card subsumes it");
        print_evidence(zuvaropy_value(word));
    }
    book[ZUVAROPY_CARD_BYTES(ZUVAROPY_ROW_BYTES) + ZUVAROPY_HEAD_BYTES + ZUVAROPY_ROLE_AT] = 99; /* row 1 of card 0 */
    return !refused(zuvaropy_most_specific(ZUVAROPY_NO_DEFINITIONS, the_case, case_len, book, book_len, LENT(work)));
}

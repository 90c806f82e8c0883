/*
 * Says of each card of a book why it is, or is not, one of the most specific ones
 * that subsume a case, under the definitions of a definitions book if there is one.
 *
 *   explain CASE BOOK [DEFINITIONS]
 *
 * Prints a line for each card: whether it subsumes the case, with the evidence of
 * zuvaropy_subsumes and whether zuvaropy_verify takes it. If it does, also whether
 * it is most specific, and which others that are have the same instances; or else
 * for which of them it is passed over. Of those that are, also each row of the
 * card's normal table, in which definitions are unfolded, and the row of the case's
 * that it goes to. Or "refused N, ..": which question refused which input, and
 * where. Exits 1 if something is refused, evidence is not taken, or a file cannot be
 * read.
 */

#include "show.h"

#include <stdio.h>

struct picture {
    const uint8_t *bytes;
    size_t length;
};

struct book {
    struct picture cards[ZUVAROPY_MAX_CARDS];
    unsigned int count;
    uint32_t most_specific; /* the set of those for the case */
};

/* Whether a card subsumes a case, which may be another card. */
struct answer {
    uint64_t word;
    int taken;                         /* the evidence was */
    uint8_t work[ZUVAROPY_WORK_BYTES]; /* the normal tables of both */
    uint8_t evidence[ZUVAROPY_MAX_EVIDENCE_BYTES];
};

static struct picture definitions; /* the bytes of the definitions book */
static int all_taken = 1;

/* The case and the book were not refused, so neither picture is. */
static void ask(struct answer *answer, const struct picture *the_case, const struct picture *card)
{
    uint64_t checked;

    answer->word = zuvaropy_subsumes(definitions.bytes, definitions.length, the_case->bytes, the_case->length,
                                     card->bytes, card->length, answer->work, sizeof answer->work, answer->evidence,
                                     sizeof answer->evidence);
    checked = zuvaropy_verify(definitions.bytes, definitions.length, the_case->bytes, the_case->length, card->bytes,
                              card->length, answer->evidence, zuvaropy_value(answer->word), answer->work,
                              sizeof answer->work);
    answer->taken = zuvaropy_outcome(checked) == zuvaropy_outcome(answer->word);
    all_taken = all_taken && answer->taken;
}

static int is_yes(const struct answer *answer)
{
    return zuvaropy_outcome(answer->word) == ZUVAROPY_OUTCOME_YES;
}

static int is_most_specific(const struct book *book, unsigned int card)
{
    return (book->most_specific >> card & 1) != 0;
}

static int subsumes(const struct book *book, unsigned int card, unsigned int other)
{
    static struct answer answer;

    ask(&answer, &book->cards[other], &book->cards[card]);
    return is_yes(&answer);
}

/* Of two cards that are found, one subsumes the other only if they have the same instances. */
static void print_most_specific(const struct book *book, unsigned int card)
{
    const char *before = ", with the same instances as";
    unsigned int other;

    printf("; most specific");
    for (other = 0; other < book->count; other++)
        if (other != card && is_most_specific(book, other) && subsumes(book, card, other)) {
            printf("%s card %u", before, other);
            before = " and";
        }
}

/* A card that is passed over subsumes one that is most specific; the first is told. */
static void print_passed_over(const struct book *book, unsigned int card)
{
    unsigned int other;

    printf("; passed over");
    for (other = 0; other < book->count; other++)
        if (is_most_specific(book, other) && subsumes(book, card, other) && !subsumes(book, other, card)) {
            printf(": subsumes card %u, which does not subsume it", other);
            return;
        }
}

static void print_images(const struct answer *answer)
{
    const uint8_t *case_table = answer->work, *card_table = answer->work + ZUVAROPY_SECOND_TABLE_AT;
    const size_t half = ZUVAROPY_MAX_PICTURE_BYTES, length = zuvaropy_value(answer->word);
    unsigned int row;

    for (row = 0; row < zuvaropy_map_images(answer->evidence, length); row++) {
        printf("  ");
        show_row(card_table, half, row);
        printf("    goes to ");
        show_row(case_table, half, zuvaropy_map_image(answer->evidence, length, row));
    }
}

static void explain_card(const struct picture *the_case, const struct book *book, unsigned int card)
{
    static struct answer answer;

    ask(&answer, the_case, &book->cards[card]);
    printf("card %u: %s the case (", card, is_yes(&answer) ? "subsumes" : "does not subsume");
    show_evidence(answer.evidence, zuvaropy_value(answer.word));
    printf(answer.taken ? ", taken)" : ", not taken)");
    if (is_most_specific(book, card))
        print_most_specific(book, card);
    else if (is_yes(&answer))
        print_passed_over(book, card);
    printf("\n");
    if (is_most_specific(book, card))
        print_images(&answer);
}

static void find_cards(struct book *book, const uint8_t *bytes, size_t length)
{
    unsigned int card;

    book->count = zuvaropy_book_cards(bytes, length);
    for (card = 0; card < book->count; card++)
        book->cards[card].bytes = zuvaropy_book_card(bytes, length, card, &book->cards[card].length);
}

int main(int argc, char **argv)
{
    static uint8_t case_bytes[SHOW_PICTURE_ROOM], book_bytes[SHOW_BOOK_ROOM], work[ZUVAROPY_WORK_BYTES];
    static uint8_t definition_bytes[SHOW_DEFINITIONS_ROOM];
    struct picture the_case;
    struct book book;
    size_t book_length;
    unsigned int card;
    uint64_t word;

    if (argc != 3 && argc != 4) {
        fprintf(stderr, "usage: %s CASE BOOK [DEFINITIONS]\n", argv[0]);
        return 2;
    }
    the_case.bytes = case_bytes;
    definitions.bytes = definition_bytes;
    if (show_read(argv[1], case_bytes, sizeof case_bytes, &the_case.length) != 0 ||
        show_read(argv[2], book_bytes, sizeof book_bytes, &book_length) != 0 ||
        show_read_definitions(argv[3], definition_bytes, sizeof definition_bytes, &definitions.length) != 0)
        return 1;
    word = zuvaropy_most_specific(definition_bytes, definitions.length, case_bytes, the_case.length, book_bytes,
                                  book_length, work, sizeof work);
    if (show_refused(word))
        return 1;
    find_cards(&book, book_bytes, book_length);
    book.most_specific = zuvaropy_value(word);
    for (card = 0; card < book.count; card++)
        explain_card(&the_case, &book, card);
    return !all_taken;
}

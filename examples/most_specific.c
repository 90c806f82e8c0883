/*
 * Finds the most specific cards of a book that subsume a case, under the definitions
 * of a definitions book if there is one.
 *
 *   most_specific CASE BOOK [DEFINITIONS]
 *
 * Prints "no card", or "card" or "cards" and their numbers, or "refused N, ..":
 * which question refused which input, and where. Exits 1 if something is refused
 * or a file cannot be read.
 */

#include "show.h"

#include <stdio.h>

static void print_cards(uint32_t cards)
{
    unsigned int card;

    if (cards == 0)
        printf("no card");
    else
        printf((cards & (cards - 1)) == 0 ? "card" : "cards");
    for (card = 0; card < ZUVAROPY_MAX_CARDS; card++)
        if (cards >> card & 1)
            printf(" %u", card);
    printf("\n");
}

int main(int argc, char **argv)
{
    static uint8_t the_case[SHOW_PICTURE_ROOM], book[SHOW_BOOK_ROOM], definitions[SHOW_DEFINITIONS_ROOM];
    static uint8_t work[ZUVAROPY_WORK_BYTES];
    size_t case_length, book_length, definitions_length;
    uint64_t word;

    if (argc != 3 && argc != 4) {
        fprintf(stderr, "usage: %s CASE BOOK [DEFINITIONS]\n", argv[0]);
        return 2;
    }
    if (show_read(argv[1], the_case, sizeof the_case, &case_length) != 0 ||
        show_read(argv[2], book, sizeof book, &book_length) != 0 ||
        show_read_definitions(argv[3], definitions, sizeof definitions, &definitions_length) != 0)
        return 1;
    word = zuvaropy_most_specific(definitions, definitions_length, the_case, case_length, book, book_length, work,
                                  sizeof work);
    if (show_refused(word))
        return 1;
    print_cards(zuvaropy_value(word));
    return 0;
}

/*
 * Says whether a card subsumes a case, that is, whether every instance of the case
 * is one of the card, and writes the evidence to a file, which the example
 * `verify` can check. The case is the first picture of the call, and the card the
 * second.
 *
 *   subsumes CASE CARD EVIDENCE
 *
 * Prints "yes, a map of N rows" and to which row of the case's normal table each
 * row of the card's goes; "no, a refutation of N individuals" and the individuals,
 * of which individual 0 is an instance of the case and not of the card; or
 * "refused N, ..": which question refused which input, and where. Exits 1 if a
 * picture is refused, which leaves the file empty, or a file cannot be read or
 * written.
 */

#include "show.h"

#include <stdio.h>

static uint8_t evidence[ZUVAROPY_MAX_EVIDENCE_BYTES];

static void print_images(size_t length)
{
    unsigned int row;

    for (row = 0; row < zuvaropy_map_images(evidence, length); row++)
        printf("  row %u goes to row %u\n", row, zuvaropy_map_image(evidence, length, row));
}

static void print_answer(uint64_t word)
{
    const size_t length = zuvaropy_value(word);

    printf(zuvaropy_outcome(word) == ZUVAROPY_OUTCOME_YES ? "yes, " : "no, ");
    show_evidence(evidence, length);
    printf("\n");
    print_images(length);
    show_individuals(evidence, length);
}

/* 0, or -1 with a message if the file cannot be written. */
static int write_evidence(const char *name, size_t length)
{
    FILE *file = fopen(name, "wb");
    size_t written;

    if (file == NULL) {
        perror(name);
        return -1;
    }
    written = fwrite(evidence, 1, length, file);
    if (fclose(file) != 0 || written != length) {
        fprintf(stderr, "%s: cannot be written\n", name);
        return -1;
    }
    return 0;
}

int main(int argc, char **argv)
{
    static uint8_t the_case[SHOW_PICTURE_ROOM], card[SHOW_PICTURE_ROOM], work[ZUVAROPY_WORK_BYTES];
    size_t case_length, card_length;
    uint64_t word;
    int refused;

    if (argc != 4) {
        fprintf(stderr, "usage: %s CASE CARD EVIDENCE\n", argv[0]);
        return 2;
    }
    if (show_read(argv[1], the_case, sizeof the_case, &case_length) != 0 ||
        show_read(argv[2], card, sizeof card, &card_length) != 0)
        return 1;
    word = zuvaropy_subsumes(ZUVAROPY_NO_DEFINITIONS, the_case, case_length, card, card_length, work, sizeof work,
                             evidence, sizeof evidence);
    refused = show_refused(word);
    if (!refused)
        print_answer(word);
    return write_evidence(argv[3], zuvaropy_value(word)) != 0 || refused;
}

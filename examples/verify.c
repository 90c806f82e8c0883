/*
 * Checks evidence that a card subsumes a case, or that it does not. The case is
 * the first picture of the call, and the card the second.
 *
 *   verify CASE CARD EVIDENCE
 *
 * Prints "map taken": the card subsumes the case; "refutation taken": it does not;
 * or "refused N, ..": which question refused which input, and where. Exits 1 if
 * something is refused or a file cannot be read.
 */

#include "show.h"

#include <stdio.h>

int main(int argc, char **argv)
{
    static uint8_t the_case[SHOW_PICTURE_ROOM], card[SHOW_PICTURE_ROOM], evidence[SHOW_EVIDENCE_ROOM];
    static uint8_t work[ZUVAROPY_WORK_BYTES];
    size_t case_length, card_length, evidence_length;
    uint64_t word;

    if (argc != 4) {
        fprintf(stderr, "usage: %s CASE CARD EVIDENCE\n", argv[0]);
        return 2;
    }
    if (show_read(argv[1], the_case, sizeof the_case, &case_length) != 0 ||
        show_read(argv[2], card, sizeof card, &card_length) != 0 ||
        show_read(argv[3], evidence, sizeof evidence, &evidence_length) != 0)
        return 1;
    word = zuvaropy_verify(ZUVAROPY_NO_DEFINITIONS, the_case, case_length, card, card_length, evidence,
                           evidence_length, work, sizeof work);
    if (show_refused(word))
        return 1;
    printf(zuvaropy_outcome(word) == ZUVAROPY_OUTCOME_YES ? "map taken\n" : "refutation taken\n");
    return 0;
}

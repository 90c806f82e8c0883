/*
 * Prints the common picture of two or more pictures, their least common subsumer,
 * a line for each row. It is folded: the third picture is taken with the common
 * picture of the first two, and so on. In another order other pictures may be
 * refused on the way.
 *
 *   lcs FIRST SECOND [NEXT..]
 *
 * Prints "a common picture of N rows" and the rows, or "refused N, ..": which
 * question refused which input, and where. If there are more than two files, that
 * begins with "stopped at FILE: ". FILE is then the second picture; the first is
 * the file before it, or the common picture of those before it. Exits 1 if a
 * picture is refused or a file cannot be read.
 */

#include "show.h"

#include <stdio.h>

/* Two buffers in turn: a result buffer must not overlap a picture, since a call may write the one while it still reads
 * the other. So the common picture so far is not in the buffer that the next one is written to. */
static uint8_t common[2][SHOW_PICTURE_ROOM];

/* Folds the pictures. The length of their common picture, which is in common[(count - 1) % 2], or 0 with a message. */
static size_t fold(char **names, int count)
{
    static uint8_t next[SHOW_PICTURE_ROOM], work[ZUVAROPY_WORK_BYTES];
    size_t length, next_length;
    uint64_t word;
    int at;

    if (show_read(names[0], common[0], sizeof common[0], &length) != 0)
        return 0;
    for (at = 1; at < count; at++) {
        if (show_read(names[at], next, sizeof next, &next_length) != 0)
            return 0;
        word = zuvaropy_lcs(ZUVAROPY_NO_DEFINITIONS, common[(at - 1) % 2], length, next, next_length, work,
                            sizeof work, common[at % 2], sizeof common[at % 2]);
        if (zuvaropy_outcome(word) == ZUVAROPY_OUTCOME_REFUSAL && count > 2)
            printf("stopped at %s: ", names[at]);
        if (show_refused(word))
            return 0;
        length = zuvaropy_value(word);
    }
    return length;
}

int main(int argc, char **argv)
{
    const int count = argc - 1;
    size_t length;

    if (count < 2) {
        fprintf(stderr, "usage: %s FIRST SECOND [NEXT..]\n", argv[0]);
        return 2;
    }
    length = fold(argv + 1, count);
    if (length == 0)
        return 1;
    show_count("a common picture", zuvaropy_table_rows(common[(count - 1) % 2], length), "row");
    printf("\n");
    show_rows(common[(count - 1) % 2], length);
    return 0;
}

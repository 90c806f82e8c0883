/*
 * Prints the normal table of each picture named on the command line, a line
 * for each row.
 *
 *   normalize FILE..
 *
 * Prints "normal table of N rows" and the rows, or "refused N, ..": which question
 * refused it, and where. Exits 1 if a file is refused or cannot be read.
 */

#include "show.h"

#include <stdio.h>

/* Nonzero if the file is refused or cannot be read. */
static int normalize_file(const char *name)
{
    uint8_t picture[SHOW_PICTURE_ROOM], table[ZUVAROPY_MAX_PICTURE_BYTES];
    size_t length;
    uint64_t word;

    if (show_read(name, picture, sizeof picture, &length) != 0)
        return 1;
    word = zuvaropy_normalize(ZUVAROPY_NO_DEFINITIONS, picture, length, table, sizeof table);
    printf("%s: ", name);
    if (show_refused(word))
        return 1;
    show_count("normal table", zuvaropy_table_rows(table, zuvaropy_value(word)), "row");
    printf("\n");
    show_rows(table, zuvaropy_value(word));
    return 0;
}

int main(int argc, char **argv)
{
    int status = 0;
    int i;

    if (argc < 2) {
        fprintf(stderr, "usage: %s FILE..\n", argv[0]);
        return 2;
    }
    for (i = 1; i < argc; i++)
        if (normalize_file(argv[i]))
            status = 1;
    return status;
}

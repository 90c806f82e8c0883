/*
 * Says of each file named on the command line whether it holds a picture.
 *
 *   validate FILE..
 *
 * Prints "a picture of N rows" or "refused N, ..": which question refused it, and
 * where. Exits 1 if a file is refused or cannot be read.
 */

#include "show.h"

#include <stdio.h>

/* Nonzero if the file is refused or cannot be read. */
static int validate_file(const char *name)
{
    uint8_t picture[SHOW_PICTURE_ROOM];
    size_t length;
    uint64_t word;

    if (show_read(name, picture, sizeof picture, &length) != 0)
        return 1;
    word = zuvaropy_validate(picture, length);
    printf("%s: ", name);
    if (show_refused(word))
        return 1;
    show_count("a picture", zuvaropy_value(word), "row");
    printf("\n");
    return 0;
}

int main(int argc, char **argv)
{
    int status = 0;
    int i;

    if (argc < 2) {
        fprintf(stderr, "usage: %s FILE..\n", argv[0]);
        return 2;
    }
    for (i = 1; i < argc; i++)
        if (validate_file(argv[i]))
            status = 1;
    return status;
}

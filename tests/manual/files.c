/* Prints what the library says of the files in the examples of zuvaropy(5): files FIRST SECOND MAP REFUTATION BOOK
 * DEFINITIONS DEFINED. The map is for the two pictures, the refutation for the same in the other order; the first is
 * looked up in the book. The picture DEFINED wants the name that is defined, by the second picture. */
#include <inttypes.h>
#include <stdio.h>
#include <string.h>

#include "zuvaropy.h"

struct file {
    uint8_t bytes[1024]; /* each of these files is shorter */
    size_t length;
};

enum { FIRST, SECOND, MAP, REFUTATION, BOOK, DEFINITIONS, DEFINED, FILES };

static struct file files[FILES];
static uint8_t work[ZUVAROPY_WORK_BYTES], result[ZUVAROPY_MAX_EVIDENCE_BYTES];

static int load(const char *name, struct file *file)
{
    FILE *stream = fopen(name, "rb");

    if (stream == NULL)
        return 0;
    file->length = fread(file->bytes, 1, sizeof file->bytes, stream);
    fclose(stream);
    return file->length > 0 && file->length < sizeof file->bytes;
}

static void print(const char *what, uint64_t word)
{
    static const char *const outcomes[] = {"refused", "yes", "no"};

    printf("%s: %s, %" PRIu32 "\n", what, outcomes[zuvaropy_outcome(word)], zuvaropy_value(word));
}

static uint64_t verify(const struct file *first, const struct file *second, const struct file *evidence)
{
    return zuvaropy_verify(ZUVAROPY_NO_DEFINITIONS, first->bytes, first->length, second->bytes, second->length,
                           evidence->bytes, evidence->length, work, sizeof work);
}

/* Is a picture its own normal table? */
static int is_normal(const struct file *picture)
{
    uint64_t word = zuvaropy_normalize(ZUVAROPY_NO_DEFINITIONS, picture->bytes, picture->length, result,
                                       sizeof result);

    return zuvaropy_value(word) == picture->length && memcmp(result, picture->bytes, picture->length) == 0;
}

/* Is the one picture the normal table of the other, with the definitions? */
static int is_unfolded(const struct file *table, const struct file *picture)
{
    uint64_t word = zuvaropy_normalize(files[DEFINITIONS].bytes, files[DEFINITIONS].length, picture->bytes,
                                       picture->length, result, sizeof result);

    return zuvaropy_value(word) == table->length && memcmp(result, table->bytes, table->length) == 0;
}

/* Does the one picture subsume the first, under a definitions book? Prints the outcome. */
static void print_subsumes(const struct file *picture, const uint8_t *definitions, size_t length)
{
    uint64_t word = zuvaropy_subsumes(definitions, length, files[FIRST].bytes, files[FIRST].length, picture->bytes,
                                      picture->length, work, sizeof work, result, sizeof result);

    printf("subsumes: %u\n", zuvaropy_outcome(word));
}

static int writes(const struct file *first, const struct file *second, const struct file *map)
{
    uint64_t word = zuvaropy_subsumes(ZUVAROPY_NO_DEFINITIONS, first->bytes, first->length, second->bytes,
                                      second->length, work, sizeof work, result, sizeof result);

    return zuvaropy_value(word) == map->length && memcmp(result, map->bytes, map->length) == 0;
}

/* Is the card whose field begins there this picture? */
static int is_card(const struct file *book, size_t at, const struct file *picture)
{
    return at + ZUVAROPY_CARD_BYTES(picture->length) <= book->length &&
           memcmp(book->bytes + at + ZUVAROPY_HEAD_BYTES, picture->bytes, picture->length) == 0;
}

int main(int argc, char **argv)
{
    int file;

    if (argc != FILES + 1)
        return 2;
    for (file = 0; file < FILES; file++)
        if (!load(argv[file + 1], &files[file]))
            return 2;
    print("first picture", zuvaropy_validate(files[FIRST].bytes, files[FIRST].length));
    print("second picture", zuvaropy_validate(files[SECOND].bytes, files[SECOND].length));
    printf("normal: %d %d\n", is_normal(&files[FIRST]), is_normal(&files[SECOND]));
    print("map", verify(&files[FIRST], &files[SECOND], &files[MAP]));
    printf("map written: %d\n", writes(&files[FIRST], &files[SECOND], &files[MAP]));
    print("refutation", verify(&files[SECOND], &files[FIRST], &files[REFUTATION]));
    printf("cards: %d %d\n", is_card(&files[BOOK], 0, &files[FIRST]),
           is_card(&files[BOOK], ZUVAROPY_CARD_BYTES(files[FIRST].length), &files[SECOND]));
    print("book", zuvaropy_most_specific(ZUVAROPY_NO_DEFINITIONS, files[FIRST].bytes, files[FIRST].length,
                                         files[BOOK].bytes, files[BOOK].length, work, sizeof work));
    printf("unfolded: %d\n", is_unfolded(&files[SECOND], &files[DEFINED]));
    print_subsumes(&files[DEFINED], files[DEFINITIONS].bytes, files[DEFINITIONS].length);
    print_subsumes(&files[DEFINED], ZUVAROPY_NO_DEFINITIONS);
    return 0;
}

/*
 * The readers of zuvaropy_parts.h on bytes at random, which they read as a plain
 * reading of fields does. The bytes stand between pages that may not be touched.
 */

#include "zuvaropy_parts.h"

#include "check.h"
#include "pages.h"
#include "random.h"

#include <string.h>

#define TURNS 200000
#define ROOM 400

static struct pages pages;

/* The number of fields that bytes begin with: of this tag, and of this length if it is not SIZE_MAX. */
static unsigned int fields(const uint8_t *bytes, size_t length, unsigned int tag, size_t value_length)
{
    unsigned int count = 0;
    size_t at = 0, value;

    for (; at + 3 <= length && bytes[at] == tag; count++) {
        value = bytes[at + 1] * 256u + bytes[at + 2];
        if (at + 3 + value > length || (value_length != SIZE_MAX && value != value_length))
            break;
        at += 3 + value;
    }
    return count;
}

/* Does a whole field of this tag and length begin at a place? */
static int is_field(const uint8_t *bytes, size_t length, size_t at, unsigned int tag, size_t value_length)
{
    return at + 3 + value_length <= length && bytes[at] == tag &&
           bytes[at + 1] * 256u + bytes[at + 2] == value_length;
}

/* Bytes that often are heads of fields, whole or not. */
static void make_bytes(uint8_t *bytes, size_t length)
{
    static const uint8_t heads[][3] = {{0x10, 0, 21}, {0x51, 0, 4}, {0x51, 0, 0}, {0x51, 1, 0}, {0x41, 0, 7},
                                       {0x42, 0, 11}, {0x2F, 0, 0}, {0x10, 0, 20}, {0x42, 0, 12}, {0x41, 0, 0}};
    const unsigned int head = random_below(10), step = head == 0 ? 24 : head == 1 ? 7 : head == 5 ? 14 : 3;
    size_t i;

    for (i = 0; i < length; i++)
        bytes[i] = (uint8_t)random_below(256);
    for (i = 0; i + 3 <= length && random_below(20) > 0; i += step)
        memcpy(bytes + i, heads[random_below(8) == 0 ? random_below(10) : head], 3);
}

/* What was met: a bit for each kind of file with several parts, and for a book with too many. */
static unsigned int check_bytes(const uint8_t *bytes, size_t length, unsigned int number, int last)
{
    const unsigned int rows = fields(bytes, length, 0x10, 21), individuals = fields(bytes, length, 0x42, 11);
    const unsigned int cards = fields(bytes, length, 0x51, SIZE_MAX), maps = fields(bytes, length, 0x41, SIZE_MAX);
    const unsigned int images = maps == 0 ? 0 : (bytes[1] * 256u + bytes[2]) / 2;
    size_t card_length;
    const uint8_t *at = pages_place(&pages, bytes, length, last);

    CHECK(zuvaropy_table_rows(at, length) == rows);
    CHECK((zuvaropy_table_row(at, length, number) != NULL) == is_field(bytes, length, number * 24, 0x10, 21));
    CHECK(zuvaropy_refutation_individuals(at, length) == individuals);
    CHECK((zuvaropy_refutation_individual(at, length, number) != NULL) ==
          is_field(bytes, length, number * 14, 0x42, 11));
    CHECK(zuvaropy_book_cards(at, length) == (cards < ZUVAROPY_MAX_CARDS ? cards : ZUVAROPY_MAX_CARDS));
    CHECK((zuvaropy_book_card(at, length, number, &card_length) != NULL) == (number < cards));
    CHECK(zuvaropy_map_images(at, length) == (images < ZUVAROPY_MAX_ROWS ? images : ZUVAROPY_MAX_ROWS));
    CHECK(number < images || zuvaropy_map_image(at, length, number) == 0);
    return (rows > 3) | (individuals > 3) << 1 | (cards > 3) << 2 | (images > 2) << 3 | (cards > 32) << 4;
}

static void test_random(void)
{
    unsigned int turn, met = 0;

    for (turn = 0; turn < TURNS; turn++) {
        uint8_t bytes[ROOM];
        const size_t length = random_below(4) == 0 ? random_below(8) : random_below(ROOM);

        make_bytes(bytes, length);
        met |= check_bytes(bytes, length, random_below(8), (int)random_below(2));
    }
    CHECK(met == 31);
}

int main(void)
{
    pages_map(&pages, ROOM);
    test_random();
    return check_summary("parts, random");
}

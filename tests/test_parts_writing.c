/*
 * The writer of zuvaropy_parts.h: pictures and books are, to the byte, those that
 * the tests build, and a buffer of any room, between pages that may not be touched,
 * is kept to.
 */

#include "zuvaropy_parts.h"

#include "book.h"
#include "calls.h"
#include "check.h"
#include "pages.h"
#include "random.h"
#include "rows.h"

#include <string.h>

#define TURNS 4000
#define SMALL_ROWS 6

static void write_names(struct zuvaropy_writer *writer, unsigned int row, const struct row *from)
{
    unsigned int name;

    for (name = 0; name < ZUVAROPY_NAMES; name++) {
        if (from->wanted >> name & 1)
            zuvaropy_write_wanted(writer, row, name);
        if (from->excluded >> name & 1)
            zuvaropy_write_excluded(writer, row, name);
    }
    if (from->impossible)
        zuvaropy_write_impossible(writer, row);
}

/* Builds the rows of a picture again; what zuvaropy_write_end gives. */
static size_t write_again(struct zuvaropy_writer *writer, const struct picture *p)
{
    static struct row rows[ZUVAROPY_MAX_ROWS + 16];
    const unsigned int count = picture_rows(p);
    unsigned int i;

    rows_read(rows, p->bytes, count);
    for (i = 0; i < count; i++) {
        const unsigned int row = zuvaropy_write_row(writer, rows[i].parent, rows[i].kind, rows[i].role);

        CHECK(row == (writer->failed ? ZUVAROPY_MAX_ROWS : i));
        write_names(writer, row, &rows[i]);
    }
    return zuvaropy_write_end(writer);
}

/* The pictures are good ones, but a few have more rows than a picture may have, or are too deep. */
static void test_pictures(void)
{
    static struct picture p;
    static uint8_t bytes[PICTURE_ROOM]; /* so that it is not the room that fails */
    unsigned int turn, written = 0, failed = 0;

    for (turn = 0; turn < TURNS; turn++) {
        const struct shape shape = random_shape();
        struct zuvaropy_writer writer = zuvaropy_write_to(bytes, sizeof bytes);
        size_t length;

        random_picture(&p, &shape);
        length = write_again(&writer, &p);
        if (picture_rows(&p) > ZUVAROPY_MAX_ROWS) {
            CHECK(length == 0 && writer.failed);
            failed++;
        } else {
            CHECK(length == p.length && memcmp(bytes, p.bytes, p.length) == 0);
            CHECK_WORD(call_validate(bytes, length), picture_validate(&p), turn);
            written++;
        }
    }
    CHECK(written > TURNS / 2 && failed > 0);
}

static void test_books(void)
{
    static struct picture cards[ZUVAROPY_MAX_CARDS + 2];
    static struct book wanted;
    static uint8_t bytes[ZUVAROPY_MAX_BOOK_BYTES], work[ZUVAROPY_WORK_BYTES];
    unsigned int count, card;

    for (card = 0; card < ZUVAROPY_MAX_CARDS + 2; card++)
        picture_mixed(&cards[card], card * 7 + 1);
    for (count = 0; count <= ZUVAROPY_MAX_CARDS + 2; count++) {
        struct zuvaropy_writer writer = zuvaropy_write_to(bytes, sizeof bytes);
        size_t length;

        book_clear(&wanted);
        for (card = 0; card < count; card++) {
            const unsigned int number = zuvaropy_write_card(&writer, cards[card].bytes, cards[card].length);

            CHECK(number == (card < ZUVAROPY_MAX_CARDS ? card : ZUVAROPY_MAX_CARDS));
            book_card(&wanted, &cards[card]);
        }
        book_end(&wanted);
        length = zuvaropy_write_end(&writer);
        CHECK(length == (count <= ZUVAROPY_MAX_CARDS ? wanted.length : 0));
        CHECK(memcmp(bytes, wanted.bytes, length) == 0);
        if (length > 0)
            CHECK(zuvaropy_question(call_most_specific(cards[0].bytes, cards[0].length, bytes, length, work,
                                                       sizeof work)) != ZUVAROPY_QUESTION_BOOK);
    }
}

/* Whole fields of what was wanted are there, and the rest of the room is as it was. */
static void check_room(const uint8_t *at, size_t room, const struct zuvaropy_writer *writer, const uint8_t *wanted)
{
    size_t i;

    CHECK(writer->length <= room && memcmp(at, wanted, writer->length) == 0);
    for (i = writer->length; i < room; i++)
        CHECK(at[i] == PAGES_FILL);
}

/* Each room up to a few bytes more than enough, at either end of the pages. */
static void test_rooms(void)
{
    static struct picture p;
    static struct book b;
    struct pages pages;
    size_t room;
    int last;

    picture_mixed(&p, SMALL_ROWS);
    book_copies(&b, &p, 2);
    pages_map(&pages, b.length + 8);
    for (last = 0; last <= 1; last++)
        for (room = 0; room <= b.length + 8; room++) {
            uint8_t *at = pages_place(&pages, NULL, room, last);
            struct zuvaropy_writer writer = zuvaropy_write_to(at, room);

            CHECK(write_again(&writer, &p) == (room < p.length ? 0 : p.length));
            check_room(at, room, &writer, p.bytes);
            writer = zuvaropy_write_to(pages_place(&pages, NULL, room, last), room);
            zuvaropy_write_card(&writer, p.bytes, p.length);
            zuvaropy_write_card(&writer, p.bytes, p.length);
            CHECK(zuvaropy_write_end(&writer) == (room < b.length ? 0 : b.length));
            check_room(at, room, &writer, b.bytes);
        }
}

int main(void)
{
    test_pictures();
    test_books();
    test_rooms();
    return check_summary("parts, writing");
}

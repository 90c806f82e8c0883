#include "feed.h"

#include "calls.h"
#include "feed_rows.h"
#include "rows.h"
#include "under.h"

#include <string.h>

#define CARDS_FED (ZUVAROPY_MAX_CARDS + 2)

unsigned int feed_byte(struct feed *feed)
{
    if (feed->left == 0)
        return 0;
    feed->left--;
    return *feed->at++;
}

unsigned int feed_number(struct feed *feed)
{
    const unsigned int high = feed_byte(feed);

    return high << 8 | feed_byte(feed);
}

/* Bytes as they stand, as many as there are and fit. */
static size_t feed_raw(struct feed *feed, uint8_t *bytes, size_t room)
{
    size_t length = feed_number(feed);

    length = length < feed->left ? length : feed->left;
    length = length < room ? length : room;
    if (length > 0)
        memcpy(bytes, feed->at, length);
    feed->at += length;
    feed->left -= length;
    return length;
}

/* A few bytes of a file changed, the file cut off, or made longer. */
static void feed_damage(struct feed *feed, uint8_t *bytes, size_t *length, size_t room)
{
    unsigned int changes, how;
    size_t at;

    for (changes = 1 + feed_byte(feed) % 3; changes > 0 && *length > 0; changes--) {
        how = feed_byte(feed);
        at = feed_number(feed) % *length;
        if (how % 8 == 0)
            *length = at;
        else if (how % 8 == 1 && *length < room)
            bytes[(*length)++] = (uint8_t)at;
        else if (how % 8 == 2 && *length - at >= ZUVAROPY_HEAD_BYTES)
            memcpy(bytes + at, "\x2F\0\0", ZUVAROPY_HEAD_BYTES);
        else
            bytes[at] = (uint8_t)(how % 8 < 5 ? bytes[at] + how / 8 - 15 : feed_byte(feed));
    }
}

void feed_picture(struct feed *feed, struct picture *p, const struct picture *other)
{
    const unsigned int form = feed_byte(feed);

    if (form % FEED_FORMS == FEED_RAW)
        p->length = feed_raw(feed, p->bytes, sizeof p->bytes);
    else if (form % FEED_FORMS < FEED_LIKE)
        feed_rows(feed, p);
    else if (form % FEED_FORMS < FEED_SHAPE)
        feed_like(feed, p, other);
    else
        feed_shape(feed, p);
    if (form >= FEED_DAMAGED)
        feed_damage(feed, p->bytes, &p->length, sizeof p->bytes);
}

/* A map for as many rows as the second normal table has, or one more. */
static void feed_map(struct feed *feed, struct inputs *in)
{
    static uint8_t table[ZUVAROPY_MAX_PICTURE_BYTES];
    unsigned int images[ZUVAROPY_MAX_ROWS + 1], rows, row;

    rows = zuvaropy_value(call_normalize(in->second.bytes, in->second.length, table, sizeof table));
    rows = rows / ZUVAROPY_ROW_BYTES + feed_byte(feed) / 0xF0;
    for (row = 0; row < rows; row++)
        images[row] = feed_byte(feed);
    evidence_map(&in->evidence, images, rows);
}

/* Individuals, each below one before it. After the last choice they are all alike. */
static void feed_individuals(struct feed *feed, struct evidence *e)
{
    const unsigned int count = feed_number(feed) % (ZUVAROPY_MAX_INDIVIDUALS + 2);
    unsigned int number, parent, role, name;

    evidence_clear(e);
    for (number = 0; number < count; number++) {
        parent = feed_byte(feed);
        role = feed_byte(feed);
        name = feed_byte(feed);
        evidence_individual(e, number == 0 ? 0 : parent < 0x80 ? parent % number : number - 1 - parent % 0x80 % number,
                            number == 0 ? 0 : role & (role < 0x80 ? 1 : ZUVAROPY_ROLES - 1),
                            name < 0x40 ? 0 : name == 0xFF ? ~UINT64_C(0) : NAME(name % ZUVAROPY_NAMES));
    }
    evidence_end(e);
}

static void write_evidence(struct evidence *e, const struct picture *first, const struct picture *second)
{
    static uint8_t work[ZUVAROPY_WORK_BYTES];

    e->length = zuvaropy_value(call_subsumes(first->bytes, first->length, second->bytes, second->length, work,
                                             sizeof work, e->bytes, ZUVAROPY_MAX_EVIDENCE_BYTES));
}

void feed_evidence(struct feed *feed, struct inputs *in)
{
    const unsigned int form = feed_byte(feed);
    struct evidence *e = &in->evidence;

    switch (form % FEED_FORMS) {
    case FEED_RAW:
        e->length = feed_raw(feed, e->bytes, sizeof e->bytes);
        break;
    case 1:
        feed_map(feed, in);
        break;
    case 2:
    case 3:
        feed_individuals(feed, e);
        break;
    case 4:
        write_evidence(e, &in->second, &in->first);
        break;
    default:
        write_evidence(e, &in->first, &in->second);
    }
    if (form >= FEED_DAMAGED / 2) /* what the library writes is mostly damaged, to be of use */
        feed_damage(feed, e->bytes, &e->length, sizeof e->bytes);
}

void feed_book(struct feed *feed, struct lookup *l)
{
    static struct picture card;
    const unsigned int form = feed_byte(feed);
    unsigned int cards;

    if (form % FEED_FORMS == FEED_RAW) {
        l->book.length = feed_raw(feed, l->book.bytes, sizeof l->book.bytes);
    } else {
        book_clear(&l->book);
        card = l->case_picture;
        for (cards = feed_byte(feed) % (CARDS_FED + 1); cards > 0 && feed->left > 0; cards--) {
            feed_picture(feed, &card, form & FEED_FORMS ? &card : &l->case_picture);
            book_card(&l->book, &card);
        }
        book_end(&l->book);
    }
    if (form >= FEED_DAMAGED)
        feed_damage(feed, l->book.bytes, &l->book.length, sizeof l->book.bytes);
}

/* A name, mostly one that there is. */
static unsigned int feed_name(struct feed *feed)
{
    const unsigned int choice = feed_byte(feed);

    return choice == 0xFF ? ZUVAROPY_NAMES : choice % ZUVAROPY_NAMES;
}

void feed_definitions(struct feed *feed, struct book *b)
{
    static struct picture picture;
    const unsigned int form = feed_byte(feed);
    unsigned int count, name;

    book_clear(b);
    if (form != FEED_NONE && form % FEED_FORMS == FEED_RAW) {
        b->length = feed_raw(feed, b->bytes, sizeof b->bytes);
    } else {
        count = form == FEED_NONE ? 0 : feed_byte(feed) % (ZUVAROPY_MAX_DEFINITIONS + 2);
        for (picture_clear(&picture); count > 0 && feed->left > 0; count--) {
            name = feed_name(feed);
            feed_picture(feed, &picture, form & FEED_FORMS ? &picture : NULL);
            book_definition(b, name, &picture);
        }
        book_end(b);
    }
    if (form >= FEED_DAMAGED)
        feed_damage(feed, b->bytes, &b->length, sizeof b->bytes);
}

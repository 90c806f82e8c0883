#include "feed_rows.h"

#include "calls.h"
#include "rows.h"

#include <string.h>

/* Few names and roles, so that rows often meet. */
static uint64_t set_of(unsigned int choice)
{
    return (choice & 0x80 ? NAME(choice % ZUVAROPY_NAMES) : 0) | (choice & 0x40 ? NAME(0) : 0);
}

static unsigned int role_of(unsigned int choice)
{
    return choice & 0x40 ? choice % ZUVAROPY_ROLES : choice & 1;
}

static unsigned int kind_of(unsigned int choice)
{
    return choice & 0x80 ? ZUVAROPY_KIND_FORALL : ZUVAROPY_KIND_EXISTS;
}

/* One of the first rows, or of the last. */
static unsigned int parent_of(unsigned int choice, unsigned int row)
{
    return choice & 0x80 ? row - 1 - choice % 0x80 % row : choice % row;
}

static void feed_label(struct feed *feed, struct picture *p)
{
    const unsigned int wanted = feed_byte(feed), excluded = feed_byte(feed);
    const int impossible = excluded % 0x40 == 0x3F;

    picture_label(p, set_of(wanted), impossible ? 0 : set_of(excluded), impossible);
}

void feed_rows(struct feed *feed, struct picture *p)
{
    unsigned int depth[ZUVAROPY_MAX_ROWS + 1] = {0};
    unsigned int last = feed_byte(feed), row, parent, edge;

    picture_clear(p);
    picture_row(p, 0, ZUVAROPY_KIND_ROOT, 0);
    feed_label(feed, p);
    for (row = 1; row <= last && feed->left > 0; row++) {
        parent = parent_of(feed_byte(feed), row);
        edge = feed_byte(feed);
        if (depth[parent] == ZUVAROPY_MAX_DEPTH)
            parent = 0;
        depth[row] = depth[parent] + 1;
        picture_row(p, parent, kind_of(edge), role_of(edge));
        feed_label(feed, p);
    }
    picture_end(p);
}

/* A row more, like one that is there or with a name. */
static void append_row(struct picture *p, unsigned int row, unsigned int choice, int copied)
{
    uint8_t value[ZUVAROPY_ROW_VALUE_BYTES];

    if (picture_rows(p) > ZUVAROPY_MAX_ROWS)
        return;
    memcpy(value, picture_value(p, row), sizeof value);
    p->length -= ZUVAROPY_HEAD_BYTES;
    picture_row(p, row, kind_of(choice), role_of(choice));
    if (copied && row > 0)
        memcpy(picture_value(p, picture_rows(p) - 1), value, sizeof value);
    else
        picture_label(p, set_of(choice), 0, 0);
    picture_end(p);
}

static void remove_last_row(struct picture *p)
{
    if (picture_rows(p) > 1) {
        p->length -= ZUVAROPY_ROW_BYTES + ZUVAROPY_HEAD_BYTES;
        picture_end(p);
    }
}

/* One row changed, or a row more or less. Half of the changes make the picture say less, or the same. */
static void feed_change(struct feed *feed, struct picture *p)
{
    const unsigned int what = feed_byte(feed) % 16, choice = feed_byte(feed);
    const unsigned int row = feed_byte(feed) % picture_rows(p), name = choice % ZUVAROPY_NAMES;
    uint8_t *value = picture_value(p, row);
    uint8_t *names = value + (choice & 0x80 ? ZUVAROPY_EXCLUDED_AT : ZUVAROPY_WANTED_AT);

    if (what < 3)
        memset(names, 0, ZUVAROPY_NAME_SET_BYTES);
    else if (what < 6)
        remove_last_row(p);
    else if (what < 9)
        append_row(p, row, choice, what > 6);
    else if (what < 12)
        names[ZUVAROPY_NAME_SET_BYTES - 1 - name / 8] ^= (uint8_t)(1 << name % 8);
    else if (what < 13)
        value[ZUVAROPY_IMPOSSIBLE_AT] ^= 1;
    else if (what < 14 && row > 0)
        value[ZUVAROPY_KIND_AT] = (uint8_t)kind_of(choice);
    else if (row > 0)
        value[ZUVAROPY_ROLE_AT] = (uint8_t)role_of(choice);
}

void feed_like(struct feed *feed, struct picture *p, const struct picture *other)
{
    unsigned int changes;

    if (other == NULL || zuvaropy_outcome(call_validate(other->bytes, other->length)) != ZUVAROPY_OUTCOME_YES) {
        feed_rows(feed, p);
        return;
    }
    if (p != other)
        *p = *other;
    for (changes = feed_byte(feed) % 4; changes > 0; changes--)
        feed_change(feed, p);
}

/* Both kinds of successor by each role. */
static void make_roles(struct picture *p, unsigned int roles, uint64_t wanted)
{
    picture_kinds(p, 0, 0);
    for (; roles > 0; roles--) {
        picture_row(p, 0, ZUVAROPY_KIND_FORALL, roles - 1);
        picture_label(p, wanted, 0, 0);
        picture_row(p, 0, ZUVAROPY_KIND_EXISTS, roles - 1);
    }
}

void feed_shape(struct feed *feed, struct picture *p)
{
    const unsigned int shape = feed_byte(feed), size = feed_byte(feed), other = feed_byte(feed);

    switch (shape % 8) {
    case FEED_REFUSED:
        picture_refused(p, ZUVAROPY_QUESTION_HEAD + size % (ZUVAROPY_QUESTION_MERGED - 1));
        return;
    case 1:
        picture_mixed(p, 1 + size);
        return;
    case 2:
        picture_fan(p, 1 + (size + other) % (ZUVAROPY_MAX_ROWS + 1));
        break;
    case 3:
        picture_chain(p, size % (ZUVAROPY_MAX_DEPTH + 2));
        break;
    case 4:
        picture_kinds(p, size % (ZUVAROPY_MAX_DEPTH + 2), size << 8 | other);
        break;
    case 5:
        picture_spread(p, size % 18, other % 18);
        break;
    case 6:
        picture_fan(p, 1 + size % 20);
        break;
    default:
        make_roles(p, size % (ZUVAROPY_ROLES + 1), set_of(other));
    }
    picture_label(p, set_of(other), 0, 0);
    picture_end(p);
}

#include "under.h"

#include "calls.h"
#include "check.h"
#include "lcs.h"
#include "most_specific.h"
#include "normalize.h"
#include "rows.h"
#include "subsumes.h"
#include "verify.h"

#include <assert.h>
#include <string.h>

void book_definition(struct book *b, unsigned int name, const struct picture *picture)
{
    book_head(b, ZUVAROPY_TAG_DEFINITION, (unsigned int)(ZUVAROPY_DEFINITION_PICTURE_AT + picture->length));
    book_byte(b, name);
    assert(b->length + picture->length <= sizeof b->bytes);
    memcpy(b->bytes + b->length, picture->bytes, picture->length);
    b->length += picture->length;
}

/* Calls */

static uint64_t call_pair(const struct under *u, unsigned int call, unsigned long at)
{
    static struct inputs in;
    static struct pair pair;

    if (call == UNDER_LCS) {
        pair.first = u->first;
        pair.second = u->second;
        return lcs_any(&pair, at);
    }
    in.first = u->first;
    in.second = u->second;
    in.evidence = u->evidence;
    return call == UNDER_SUBSUMES ? subsumes_any(&in, at) : verify_any(&in, at);
}

static uint64_t call_lookup(const struct under *u, unsigned long at)
{
    static struct lookup l;

    l.case_picture = u->first;
    l.book.length = u->book.length;
    memcpy(l.book.bytes, u->book.bytes, u->book.length);
    return most_specific_any(&l, at);
}

uint64_t under_call_at(struct under *u, const uint8_t *definitions, unsigned int call, unsigned long at)
{
    uint64_t word;

    calls_under(definitions, u->definitions.length);
    if (call == UNDER_NORMALIZE)
        word = normalize_any(&u->first, at);
    else if (call == UNDER_MOST_SPECIFIC)
        word = call_lookup(u, at);
    else
        word = call_pair(u, call, at);
    calls_under_none();
    return word;
}

uint64_t under_call(struct under *u, unsigned int call, unsigned long at)
{
    static uint8_t before[BOOK_ROOM];
    uint64_t word;

    memcpy(before, u->definitions.bytes, u->definitions.length);
    word = under_call_at(u, u->definitions.bytes, call, at);
    CHECK(memcmp(before, u->definitions.bytes, u->definitions.length) == 0);
    return word;
}

void under_check_all(struct under *u, uint64_t wanted, unsigned long at)
{
    unsigned int call;

    for (call = 0; call < UNDER_CALLS; call++)
        CHECK_WORD(under_call(u, call, at), wanted, at * UNDER_CALLS + call);
}

void under_check_table(struct under *u, const struct picture *table, unsigned long at)
{
    CHECK_WORD(under_call(u, UNDER_NORMALIZE, at), word_length(picture_rows(table)), at);
    calls_under(u->definitions.bytes, u->definitions.length);
    normalize_check_fills(&u->first, word_length(picture_rows(table)), table->bytes, at);
    calls_under_none();
}

uint64_t word_definitions(unsigned int question)
{
    return (uint64_t)question << 48 | (uint64_t)6 << 40;
}

uint64_t word_definition(unsigned int number, unsigned int question, unsigned int row)
{
    return (uint64_t)question << 48 | (uint64_t)7 << 40 | (uint64_t)number << 32 | word_place(row);
}

/* Inputs by their word */

#define WIDE 5
#define DEEP 6
#define LAST 7

/* A picture that is refused by 27, 29 or 30 under the definitions that are made; a good one for any other question. */
static void make_refused(struct picture *p, unsigned int question)
{
    const unsigned int name = question == ZUVAROPY_QUESTION_UNFOLDED ? WIDE : DEEP;

    picture_fan(p, 9);
    if (question == ZUVAROPY_QUESTION_UNFOLDED || question == ZUVAROPY_QUESTION_UNFOLDED_DEPTH)
        picture_label(p, NAME(name), 0, 0);
    if (question == ZUVAROPY_QUESTION_EXCLUDED)
        picture_label(p, 0, NAME(DEEP), 0);
    picture_end(p);
}

static void make_definitions(struct under *u, unsigned int question, int last)
{
    static struct picture p;

    book_clear(&u->definitions);
    picture_fan(&p, 250);
    picture_end(&p);
    book_definition(&u->definitions, WIDE, &p);
    picture_kinds(&p, ZUVAROPY_MAX_DEPTH, 0);
    picture_end(&p);
    book_definition(&u->definitions, DEEP, &p);
    make_refused(&p, last ? question : 0);
    if (question <= ZUVAROPY_QUESTION_IMPOSSIBLE)
        picture_refused(&p, question);
    if (question == ZUVAROPY_QUESTION_RING)
        rows_picture(&p, ROWS(ROOT(NAME(LAST), 0)));
    book_definition(&u->definitions, question == ZUVAROPY_QUESTION_DEFINED_TWICE ? DEEP : LAST, &p);
    book_end(&u->definitions);
    if (question == ZUVAROPY_QUESTION_DEFINITIONS)
        book_byte(&u->definitions, 0);
}

static void make_given(struct under *u, unsigned int first, unsigned int second)
{
    make_refused(&u->first, first);
    make_refused(&u->second, second);
    evidence_map(&u->evidence, IMAGES(0));
    book_clear(&u->book);
    book_card(&u->book, &u->first);
    book_card(&u->book, &u->second);
    book_end(&u->book);
}

uint64_t under_make(struct under *u, unsigned int n)
{
    static const unsigned int books[] = {25, 26, 28}, pictures[] = {27, 29, 30};
    const unsigned int question = n < 3 ? books[n] : n < 15 ? n - 1 : pictures[(n - 15) / 3];
    const unsigned int which = n < 15 ? 2 : (n - 15) % 3;

    make_definitions(u, question, which == 2);
    make_given(u, which == 0 ? question : 0, which == 1 ? question : 0);
    if (n < 3)
        return word_definitions(question);
    if (which == 2)
        return word_definition(2, question, n < 15 ? picture_refused_row(question) : 0);
    return which == 0 ? word_refusal(question, 0) : word_second(question, 0);
}

/* At random */

static void put_names(uint8_t *at, uint64_t names)
{
    unsigned int i;

    for (i = 0; i < ZUVAROPY_NAME_SET_BYTES; i++)
        at[i] = (uint8_t)(names >> 8 * (ZUVAROPY_NAME_SET_BYTES - 1 - i));
}

void random_mention(struct picture *p, const struct defined *defined, unsigned int often)
{
    const int clean = random_below(24) != 0;
    uint64_t wanted, excluded;
    unsigned int row;

    for (row = 0; row < picture_rows(p); row++) {
        uint8_t *value = picture_value(p, row);

        wanted = rows_number(value + ZUVAROPY_WANTED_AT, ZUVAROPY_NAME_SET_BYTES) & ~defined->set;
        while (defined->count > 0 && random_below(8) < often)
            wanted |= NAME(defined->names[random_below(defined->count)]);
        put_names(value + ZUVAROPY_WANTED_AT, wanted);
        excluded = rows_number(value + ZUVAROPY_EXCLUDED_AT, ZUVAROPY_NAME_SET_BYTES);
        if (clean)
            put_names(value + ZUVAROPY_EXCLUDED_AT, excluded & ~defined->set);
    }
}

static void random_names(struct defined *defined)
{
    static const unsigned int most[] = {2, 2, 3, 3, 5, 8, ZUVAROPY_MAX_DEFINITIONS + 1};
    unsigned int count = random_below(most[random_below(7)]), name;

    defined->count = 0;
    defined->set = 0;
    while (defined->count < count) {
        name = random_below(ZUVAROPY_NAMES);
        if ((defined->set & NAME(name)) != 0 && random_below(64) != 0)
            continue;
        defined->names[defined->count++] = name;
        defined->set |= NAME(name);
    }
}

/* Mostly of a few rows, at times of a few too many. */
static unsigned int random_rows(void)
{
    if (random_below(128) == 0)
        return ZUVAROPY_MAX_ROWS + random_below(4);
    return 1 + random_below(random_below(8) == 0 ? 30 : 5);
}

/* Each definition mentions only those after it, so that there is no ring; or at times any. A few are damaged. */
void random_definitions(struct book *b, struct defined *defined, const struct shape *s)
{
    static struct picture p;
    const int any = random_below(16) == 0;
    struct shape small = *s;
    struct defined later;
    unsigned int i, n;

    random_names(defined);
    book_clear(b);
    for (i = 0; i < defined->count; i++) {
        small.rows = random_rows();
        random_picture(&p, &small);
        picture_value(&p, 0)[ZUVAROPY_IMPOSSIBLE_AT] = random_below(32) == 0;
        later = *defined;
        for (n = 0; !any && n < defined->count - i - 1; n++)
            later.names[n] = defined->names[i + 1 + n];
        later.count = any ? defined->count : n;
        random_mention(&p, &later, random_below(6));
        if (random_below(48) == 0)
            random_damage(&p);
        book_definition(b, defined->names[i], &p);
    }
    book_end(b);
}

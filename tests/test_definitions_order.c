/*
 * The order of the questions under definitions: in every call the first whose
 * answer is no is the one that is named, whatever else is wrong besides.
 */

#include "calls.h"
#include "check.h"
#include "lcs.h"
#include "most_specific.h"
#include "rows.h"
#include "subsumes.h"
#include "under.h"
#include "verify.h"

/* What can be wrong, of a picture, of a definition or of a book. */
enum wrong { READING, BOOK_FORM, FORM, DEFINITION_READING, TWICE, EXCLUDED, DEFINITION_EXCLUDED, RING, WIDE,
             DEFINITION_WIDE, DEEP, DEFINITION_DEEP, MERGED, LAST };

struct fault {
    enum wrong wrong;
    unsigned int picture; /* that it is in: 0 for the first, then the second or the cards */
};

#define CARDS 3
#define MAX_FAULTS 40

static struct fault faults[MAX_FAULTS];
static unsigned int fault_count;
static int on[MAX_FAULTS];
static struct under u;

/* The faults of a call in the order in which they are found. */

static void add(enum wrong wrong, unsigned int picture)
{
    faults[fault_count].wrong = wrong;
    faults[fault_count++].picture = picture;
}

static void add_each(enum wrong wrong, unsigned int pictures)
{
    unsigned int n;

    for (n = 0; n < pictures; n++)
        add(wrong, n);
}

static unsigned int pictures_of(unsigned int call)
{
    return call == UNDER_NORMALIZE ? 1 : call == UNDER_MOST_SPECIFIC ? 1 + CARDS : 2;
}

static void list_faults(unsigned int call)
{
    const unsigned int pictures = pictures_of(call);
    unsigned int n;

    fault_count = 0;
    add(READING, 0);
    if (call == UNDER_MOST_SPECIFIC)
        add(BOOK_FORM, 0);
    for (n = 1; n < pictures; n++)
        add(READING, n);
    add(FORM, 0);
    add(DEFINITION_READING, 0);
    add(TWICE, 0);
    add_each(EXCLUDED, pictures);
    add(DEFINITION_EXCLUDED, 0);
    add(RING, 0);
    add_each(WIDE, pictures);
    add(DEFINITION_WIDE, 0);
    add_each(DEEP, pictures);
    add(DEFINITION_DEEP, 0);
    add_each(MERGED, pictures);
    if (call == UNDER_LCS || call == UNDER_VERIFY)
        add(LAST, 0);
}

static int is_on(enum wrong wrong, unsigned int picture)
{
    unsigned int i;

    for (i = 0; i < fault_count; i++)
        if (on[i] && faults[i].wrong == wrong && faults[i].picture == picture)
            return 1;
    return 0;
}

/* The definitions. Those of CHAIN and FAN make a picture too deep and too wide. */
enum { CHAIN, FAN, PLAIN, EXCLUDER, WIDENER, DEEPENER, SELF, AGAIN, UNREAD, DEFINITIONS };
#define DEFINED(n) NAME(FIRST_NAME + (n))
#define FIRST_NAME 10
#define FAN_ROWS 250
#define OWN_ROWS 10

static void want(struct picture *p, unsigned int row, unsigned int definition)
{
    const unsigned int name = FIRST_NAME + definition;

    picture_value(p, row)[ZUVAROPY_WANTED_AT + 7 - name / 8] |= (uint8_t)(1 << name % 8);
}

static void exclude(struct picture *p, unsigned int row, unsigned int definition)
{
    const unsigned int name = FIRST_NAME + definition;

    picture_value(p, row)[ZUVAROPY_EXCLUDED_AT + 7 - name / 8] |= (uint8_t)(1 << name % 8);
}

static void make_definition(struct picture *p, unsigned int n, unsigned int question)
{
    picture_fan(p, n == FAN ? FAN_ROWS : OWN_ROWS);
    if (n == CHAIN)
        picture_kinds(p, ZUVAROPY_MAX_DEPTH, 0);
    picture_end(p);
    if (n == EXCLUDER && is_on(DEFINITION_EXCLUDED, 0))
        exclude(p, 2, PLAIN);
    if (n == WIDENER && is_on(DEFINITION_WIDE, 0))
        want(p, 0, FAN);
    if (n == DEEPENER && is_on(DEFINITION_DEEP, 0))
        want(p, 1, CHAIN);
    if (n == SELF && is_on(RING, 0))
        want(p, 3, SELF);
    if (n == UNREAD && is_on(DEFINITION_READING, 0))
        picture_refused(p, question);
}

static void make_definitions(unsigned int question)
{
    static struct picture p;
    unsigned int n;

    book_clear(&u.definitions);
    for (n = 0; n < DEFINITIONS; n++) {
        make_definition(&p, n, question);
        book_definition(&u.definitions, n == AGAIN && is_on(TWICE, 0) ? FIRST_NAME + PLAIN : FIRST_NAME + n, &p);
    }
    book_end(&u.definitions);
    if (is_on(FORM, 0))
        book_byte(&u.definitions, 0);
}

static void make_given(struct picture *p, unsigned int n, unsigned int question)
{
    if (is_on(MERGED, n))
        picture_spread(p, 15, 15);
    else
        picture_fan(p, is_on(LAST, 0) ? 2 * OWN_ROWS : OWN_ROWS);
    picture_end(p);
    want(p, 1, PLAIN);
    if (is_on(EXCLUDED, n))
        exclude(p, 1, PLAIN);
    if (is_on(WIDE, n))
        want(p, 0, FAN);
    if (is_on(DEEP, n))
        want(p, 1, CHAIN);
    if (is_on(READING, n))
        picture_refused(p, question);
}

static void make_inputs(unsigned int call, unsigned int question)
{
    static struct picture card;
    unsigned int n;

    make_definitions(question);
    make_given(&u.first, 0, question);
    make_given(&u.second, 1, question);
    evidence_clear(&u.evidence);
    if (!is_on(LAST, 0)) {
        evidence_individual(&u.evidence, 0, 1, 0);
        evidence_end(&u.evidence);
    }
    book_clear(&u.book);
    for (n = 1; call == UNDER_MOST_SPECIFIC && n <= CARDS; n++) {
        make_given(&card, n, question);
        book_card(&u.book, &card);
    }
    book_end(&u.book);
    if (is_on(BOOK_FORM, 0))
        book_byte(&u.book, 0);
}

/* Words */

static uint64_t word_given(unsigned int call, unsigned int picture, unsigned int question)
{
    const unsigned int row = picture_refused_row(question);
    const int placed = question <= ZUVAROPY_QUESTION_IMPOSSIBLE;

    if (picture == 0)
        return word_refusal(question, placed ? row : 0);
    if (call == UNDER_MOST_SPECIFIC)
        return word_card(picture - 1, question, placed ? row : 0);
    return word_second(question, placed ? row : 0);
}

static uint64_t word_fault(unsigned int call, const struct fault *fault, unsigned int question)
{
    switch (fault->wrong) {
    case READING:
        return word_given(call, fault->picture, question);
    case BOOK_FORM:
        return word_book();
    case FORM:
        return word_definitions(25);
    case DEFINITION_READING:
        return word_definition(UNREAD, question, picture_refused_row(question));
    case TWICE:
        return word_definitions(26);
    case EXCLUDED:
        return word_given(call, fault->picture, 27);
    case DEFINITION_EXCLUDED:
        return word_definition(EXCLUDER, 27, 0);
    case RING:
        return word_definitions(28);
    case WIDE:
        return word_given(call, fault->picture, 29);
    case DEFINITION_WIDE:
        return word_definition(WIDENER, 29, 0);
    case DEEP:
        return word_given(call, fault->picture, 30);
    case DEFINITION_DEEP:
        return word_definition(DEEPENER, 30, 0);
    case MERGED:
        return word_given(call, fault->picture, 14);
    default:
        return call == UNDER_LCS ? word_second(15, 0) : word_evidence(16);
    }
}

/* The faults that are on, the first of which is this one; with each question of a picture that is read. */
static void check_first(unsigned int call, unsigned int first)
{
    static unsigned int turn;
    const unsigned int question = 2 + turn++ % 12;

    make_inputs(call, question);
    CHECK_WORD(under_call(&u, call, first), word_fault(call, &faults[first], question), call * 100 + first);
}

static void switch_off(void)
{
    unsigned int i;

    for (i = 0; i < MAX_FAULTS; i++)
        on[i] = 0;
}

/* Each fault alone, with each later one, with all of them, and with some. */
static void test_call(unsigned int call)
{
    unsigned int first, other, turn;

    list_faults(call);
    for (first = 0; first < fault_count; first++) {
        switch_off();
        on[first] = 1;
        for (turn = 0; turn < 12; turn++)
            check_first(call, first);
        for (other = first + 1; other < fault_count; other++) {
            on[other] = 1;
            check_first(call, first);
            on[other] = 0;
        }
        for (turn = 0; turn < 24; turn++) {
            for (other = first + 1; other < fault_count; other++)
                on[other] = turn == 0 || random_below(2);
            check_first(call, first);
        }
    }
    switch_off();
    make_inputs(call, 2);
    CHECK(call == UNDER_VERIFY || zuvaropy_outcome(under_call(&u, call, 0)) == ZUVAROPY_OUTCOME_YES);
}

/* A buffer that is short comes before all. */
static void test_short(void)
{
    static struct inputs in;
    static struct pair pair;
    static struct lookup l;
    static uint8_t result[ZUVAROPY_MAX_PICTURE_BYTES];
    const size_t work = ZUVAROPY_WORK_BYTES, room = ZUVAROPY_MAX_EVIDENCE_BYTES;
    unsigned int i;

    list_faults(UNDER_MOST_SPECIFIC);
    for (i = 0; i < fault_count; i++)
        on[i] = 1;
    make_inputs(UNDER_MOST_SPECIFIC, 3);
    in.first = pair.first = l.case_picture = u.first;
    in.second = pair.second = u.second;
    l.book = u.book;
    calls_under(u.definitions.bytes, u.definitions.length);
    CHECK_WORD(call_normalize(u.first.bytes, u.first.length, result, sizeof result - 1), word_short(), 0);
    CHECK_WORD(subsumes_room(&in, work - 1, room, 0xA5, 1), word_short(), 1);
    CHECK_WORD(subsumes_room(&in, work, room - 1, 0xA5, 2), word_short(), 2);
    CHECK_WORD(verify_room(&in, work - 1, 0xA5, 3), word_short(), 3);
    CHECK_WORD(lcs_room(&pair, work - 1, sizeof result, 0xA5, 4), word_short(), 4);
    CHECK_WORD(lcs_room(&pair, work, sizeof result - 1, 0xA5, 5), word_short(), 5);
    most_specific_room(&l, work - 1, 0xA5, word_short(), 6);
    calls_under_none();
}

int main(void)
{
    unsigned int call;

    for (call = 0; call < UNDER_CALLS; call++)
        test_call(call);
    test_short();
    return check_summary("definitions, order");
}

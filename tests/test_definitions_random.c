/*
 * Definitions and pictures made at random, some of them damaged: all calls are
 * compared with the reference, byte for byte. Where nothing is refused by 25 to
 * 30, each call is made again on the unfolded pictures without definitions, and
 * gives the same word.
 */

#include "calls.h"
#include "check.h"
#include "definitions_reference.h"
#include "random.h"
#include "rows.h"
#include "under.h"

#include <string.h>

#define BOOKS 6000
#define QUESTIONS (ZUVAROPY_QUESTION_UNFOLDED_DEPTH + 1)
#define INPUTS (ZUVAROPY_INPUT_DEFINITION + 1)

static struct under u;
static struct defined defined;

/* How often each refusal and each kind of answer was met. */
static unsigned long refused[QUESTIONS][INPUTS];
static struct {
    unsigned long yes, no, gained, many, nested, large, marked;
} met;

static void damage(void)
{
    static struct picture part;

    switch (random_below(12)) {
    case 0:
        random_damage(&u.first);
        break;
    case 1:
        random_damage(&u.second);
        break;
    case 2:
        u.definitions.bytes[random_below((unsigned int)u.definitions.length)] = (uint8_t)random_next();
        break;
    case 3:
        u.definitions.length = random_below((unsigned int)u.definitions.length + 1);
        break;
    case 4: /* a few bytes from somewhere on, as random_damage would have them in a picture */
        part.length = u.definitions.length < 200 ? u.definitions.length : 200;
        memcpy(part.bytes, u.definitions.bytes + u.definitions.length - part.length, part.length);
        u.definitions.length -= part.length;
        random_damage(&part);
        memcpy(u.definitions.bytes + u.definitions.length, part.bytes, part.length);
        u.definitions.length += part.length;
        break;
    default:
        break;
    }
}

/* A few cards, each like one of the pictures. */
static void make_book(const struct shape *s)
{
    static struct picture card;
    unsigned int cards;

    book_clear(&u.book);
    for (cards = random_below(6); cards > 0; cards--) {
        card = random_below(2) ? u.first : u.second;
        if (random_below(2) && picture_rows(&card) > 0)
            random_change(&card, s);
        if (random_below(2))
            random_mention(&card, &defined, random_below(4));
        book_card(&u.book, &card);
    }
    book_end(&u.book);
}

static void make_inputs(void)
{
    struct shape shape = random_shape();
    const unsigned int often = random_below(5);

    if (shape.rows > 40 && random_below(4) != 0)
        shape.rows = 1 + random_below(10);
    random_definitions(&u.definitions, &defined, &shape);
    random_picture(&u.first, &shape);
    random_mention(&u.first, &defined, often);
    u.second = u.first;
    if (random_below(4) == 0) {
        random_picture(&u.second, &shape);
        random_mention(&u.second, &defined, often);
    } else if (random_below(2)) {
        random_change(&u.second, &shape);
    }
    make_book(&shape);
    damage();
    evidence_clear(&u.evidence);
}

/* Says what the unfolded picture is like. */
static void count_unfolded(const struct picture *p)
{
    static struct picture unfolded;
    static struct row rows[ZUVAROPY_MAX_ROWS];
    const unsigned int own = picture_rows(p);
    unsigned int row, count;

    calls_under(u.definitions.bytes, u.definitions.length);
    reference_unfold(&unfolded, p->bytes, p->length);
    calls_under_none();
    count = picture_rows(&unfolded);
    rows_read(rows, unfolded.bytes, count);
    met.gained += count > own;
    met.large += count > 100 && count > own;
    met.many += defined.count > 4 && count > own + 4;
    for (row = own; row < count; row++)
        if (rows[row].parent > own) {
            met.nested++;
            break;
        }
    for (row = 0; row < count; row++)
        if (rows[row].impossible && rows[row].wanted != 0) {
            met.marked++;
            break;
        }
}

/* The inputs unfolded, and no definitions. */
static void unfold_inputs(struct under *to)
{
    static struct picture card, unfolded;
    const size_t end = u.book.length - ZUVAROPY_HEAD_BYTES;
    unsigned int n;

    calls_under(u.definitions.bytes, u.definitions.length);
    reference_unfold(&to->first, u.first.bytes, u.first.length);
    reference_unfold(&to->second, u.second.bytes, u.second.length);
    book_clear(&to->book);
    for (n = 0; book_field_at(&u.book, n) < end; n++) {
        book_take(&u.book, n, &card);
        reference_unfold(&unfolded, card.bytes, card.length);
        book_card(&to->book, &unfolded);
    }
    calls_under_none();
    book_end(&to->book);
    to->evidence = u.evidence;
    book_clear(&to->definitions);
    book_end(&to->definitions);
}

static int is_about_definitions(uint64_t word)
{
    return zuvaropy_outcome(word) == ZUVAROPY_OUTCOME_REFUSAL &&
           (zuvaropy_question(word) < ZUVAROPY_QUESTION_MERGED || zuvaropy_question(word) > ZUVAROPY_QUESTION_REFUTED);
}

static void count_word(uint64_t word)
{
    if (zuvaropy_outcome(word) == ZUVAROPY_OUTCOME_REFUSAL)
        refused[zuvaropy_question(word)][zuvaropy_input(word)]++;
    met.yes += zuvaropy_outcome(word) == ZUVAROPY_OUTCOME_YES;
    met.no += zuvaropy_outcome(word) == ZUVAROPY_OUTCOME_NO;
}

/* Evidence, as the library writes it under the definitions. */
static void write_evidence(void)
{
    static uint8_t work[ZUVAROPY_WORK_BYTES];

    calls_under(u.definitions.bytes, u.definitions.length);
    u.evidence.length = zuvaropy_value(call_subsumes(u.first.bytes, u.first.length, u.second.bytes, u.second.length,
                                                     work, sizeof work, u.evidence.bytes,
                                                     ZUVAROPY_MAX_EVIDENCE_BYTES));
    calls_under_none();
}

static void check_inputs(unsigned long at)
{
    static struct under unfolded;
    uint64_t words[UNDER_CALLS];
    unsigned int call;

    for (call = 0; call < UNDER_CALLS; call++) {
        if (call == UNDER_VERIFY)
            write_evidence();
        words[call] = under_call(&u, call, at);
        count_word(words[call]);
    }
    if (is_about_definitions(words[UNDER_VERIFY]) || is_about_definitions(words[UNDER_MOST_SPECIFIC]))
        return;
    count_unfolded(&u.first);
    unfold_inputs(&unfolded);
    for (call = 0; call < UNDER_CALLS; call++)
        CHECK_WORD(under_call(&unfolded, call, at), words[call], at);
}

static void check_met(void)
{
    static const unsigned int given[] = {ZUVAROPY_INPUT_FIRST, ZUVAROPY_INPUT_SECOND, ZUVAROPY_INPUT_CARD,
                                         ZUVAROPY_INPUT_DEFINITION};
    static const unsigned int asked[] = {27, 29, 30};
    unsigned int i, n, question;

    CHECK(refused[25][ZUVAROPY_INPUT_DEFINITIONS] > 100);
    CHECK(refused[26][ZUVAROPY_INPUT_DEFINITIONS] > 20);
    CHECK(refused[28][ZUVAROPY_INPUT_DEFINITIONS] > 100);
    for (i = 0; i < 3; i++)
        for (n = 0; n < 4; n++)
            CHECK(refused[asked[i]][given[n]] > 10);
    for (question = ZUVAROPY_QUESTION_HEAD; question <= ZUVAROPY_QUESTION_IMPOSSIBLE; question++)
        CHECK(refused[question][ZUVAROPY_INPUT_DEFINITION] > 0);
    CHECK(refused[14][ZUVAROPY_INPUT_FIRST] > 20);
    CHECK(met.yes > BOOKS && met.no > BOOKS / 8);
    CHECK(met.gained > BOOKS / 10 && met.many > BOOKS / 100 && met.nested > BOOKS / 50);
    CHECK(met.large > 20 && met.marked > 20);
}

int main(void)
{
    unsigned long i;

    for (i = 0; i < BOOKS; i++) {
        make_inputs();
        check_inputs(i);
    }
    check_met();
    return check_summary("definitions at random");
}

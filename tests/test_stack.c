/*
 * The stack that each call takes is at most what the header says; how much was
 * measured is printed. A call is made on a stack of its own, painted beforehand;
 * it took what has lost its paint. The recursions of the library go down the
 * pictures, so these are chains, up to the deepest: of 'some', of 'all' and of
 * both by turns. Pictures, evidence and books as large as allowed and pictures at
 * random take no more. The same is done under definitions.
 */

#define _XOPEN_SOURCE 600 /* makecontext */

#include "book.h"
#include "calls.h"
#include "check.h"
#include "evidence.h"
#include "random.h"
#include "rows.h"
#include "under.h"

#include <stdio.h>
#include <string.h>
#include <ucontext.h>

#define PAINT 0xA5
#define PAINTED_BYTES 131072 /* several times what any call takes */
#define KNOWN_BYTES 20000
#define PAIRS_AT_RANDOM 400

static uint8_t stack[PAINTED_BYTES];
static struct inputs in;
static uint64_t word;

static void run(void (*call)(void))
{
    static ucontext_t here, there;

    CHECK(getcontext(&there) == 0);
    there.uc_stack.ss_sp = stack;
    there.uc_stack.ss_size = sizeof stack;
    there.uc_link = &here;
    makecontext(&there, call, 0);
    CHECK(swapcontext(&here, &there) == 0);
}

/* The bytes that a call takes, with the few that it takes to make it. It is made twice: at the first time the C
 * library's own functions may have to be found, which takes stack too. */
static size_t taken(void (*call)(void))
{
    size_t left = 0;

    run(call);
    memset(stack, PAINT, sizeof stack);
    run(call);
    while (left < sizeof stack && stack[left] == PAINT)
        left++;
    return sizeof stack - left;
}

static void validate(void)
{
    word = call_validate(in.first.bytes, in.first.length);
}

static void normalize(void)
{
    static uint8_t table[ZUVAROPY_MAX_PICTURE_BYTES];

    word = call_normalize(in.first.bytes, in.first.length, table, sizeof table);
}

static uint8_t work[ZUVAROPY_WORK_BYTES];

static void subsumes(void)
{
    word = call_subsumes(in.first.bytes, in.first.length, in.second.bytes, in.second.length, work, sizeof work,
                         in.evidence.bytes, ZUVAROPY_MAX_EVIDENCE_BYTES);
    in.evidence.length = zuvaropy_value(word);
}

static void verify(void)
{
    word = call_verify(in.first.bytes, in.first.length, in.second.bytes, in.second.length, in.evidence.bytes,
                       in.evidence.length, work, sizeof work);
}

static void lcs(void)
{
    static uint8_t common[ZUVAROPY_MAX_PICTURE_BYTES];

    word = call_lcs(in.first.bytes, in.first.length, in.second.bytes, in.second.length, work, sizeof work, common,
                    sizeof common);
}

static struct book book;

/* As many cards as allowed, of both pictures: these are compared both ways. */
static void make_book(void)
{
    book_copies(&book, &in.second, ZUVAROPY_MAX_CARDS);
    book_replace(&book, 1, &in.first);
}

static void most_specific(void)
{
    word = call_most_specific(in.first.bytes, in.first.length, book.bytes, book.length, work, sizeof work);
}

/* The calls, what the header says of each, and the most that was measured: under no definitions, and under some. */
enum { VALIDATE, NORMALIZE, SUBSUMES, VERIFY, LCS, MOST_SPECIFIC, CALLS };
static struct {
    const char *name;
    void (*call)(void);
    size_t stated, measured[2];
} calls[CALLS] = {
    {"zuvaropy_validate", validate, ZUVAROPY_VALIDATE_STACK_BYTES, {0, 0}},
    {"zuvaropy_normalize", normalize, ZUVAROPY_NORMALIZE_STACK_BYTES, {0, 0}},
    {"zuvaropy_subsumes", subsumes, ZUVAROPY_SUBSUMES_STACK_BYTES, {0, 0}},
    {"zuvaropy_verify", verify, ZUVAROPY_VERIFY_STACK_BYTES, {0, 0}},
    {"zuvaropy_lcs", lcs, ZUVAROPY_LCS_STACK_BYTES, {0, 0}},
    {"zuvaropy_most_specific", most_specific, ZUVAROPY_MOST_SPECIFIC_STACK_BYTES, {0, 0}},
};

/* The outcome of the call. */
static unsigned int measure(unsigned int n)
{
    const size_t bytes = taken(calls[n].call);

    const int under = calls_are_under();

    CHECK(bytes <= calls[n].stated);
    if (bytes > calls[n].measured[under])
        calls[n].measured[under] = bytes;
    return zuvaropy_outcome(word);
}

/* Each call on the pair, with the outcomes of those on two pictures; the evidence checked is what was written. */
static void check_calls(unsigned int verdict, unsigned int common)
{
    CHECK(measure(VALIDATE) == ZUVAROPY_OUTCOME_YES);
    CHECK(measure(NORMALIZE) == ZUVAROPY_OUTCOME_YES);
    CHECK(measure(SUBSUMES) == verdict);
    CHECK(measure(VERIFY) == verdict);
    CHECK(measure(LCS) == common);
    make_book();
    CHECK(measure(MOST_SPECIFIC) == ZUVAROPY_OUTCOME_YES);
}

/* A chain with a name at its end. */
static void make_chain(struct picture *p, unsigned int edges, unsigned int all, uint64_t wanted)
{
    picture_kinds(p, edges, all);
    picture_label(p, wanted, 0, 0);
    picture_end(p);
}

/* The search, the writers of evidence and the checks of it go down to the end: yes; no at the end; no at the root, and
 * all below it is as the first asks; no of what asks nothing, against each row of the second. */
static void check_chain(unsigned int edges, unsigned int all)
{
    make_chain(&in.first, edges, all, NAME(0));
    in.second = in.first;
    check_calls(ZUVAROPY_OUTCOME_YES, ZUVAROPY_OUTCOME_YES);
    make_chain(&in.second, edges, all, NAME(1));
    check_calls(ZUVAROPY_OUTCOME_NO, ZUVAROPY_OUTCOME_YES);
    picture_value(&in.second, 0)[ZUVAROPY_WANTED_AT] = 1;
    check_calls(ZUVAROPY_OUTCOME_NO, ZUVAROPY_OUTCOME_YES);
    rows_picture(&in.first, ROWS(ROOT(0, 0)));
    make_chain(&in.second, edges, all, NAME(1));
    check_calls(ZUVAROPY_OUTCOME_NO, ZUVAROPY_OUTCOME_YES);
}

/* What is below an impossible row is copied: from the root, and from halfway down. */
static void check_impossible(unsigned int edges, unsigned int all)
{
    rows_picture(&in.first, ROWS(ROOT_NONE));
    make_chain(&in.second, edges, all, NAME(1));
    check_calls(ZUVAROPY_OUTCOME_YES, ZUVAROPY_OUTCOME_YES);
    picture_kinds(&in.first, edges / 2, all);
    picture_label(&in.first, 0, 0, 1);
    picture_end(&in.first);
    check_calls(ZUVAROPY_OUTCOME_YES, ZUVAROPY_OUTCOME_YES);
}

static void test_chains(void)
{
    static const unsigned int kinds[] = {0, ~0u, 0x555, 0xAAA};
    unsigned int edges, i;

    for (edges = 0; edges <= ZUVAROPY_MAX_DEPTH; edges += 4)
        for (i = 0; i < sizeof kinds / sizeof kinds[0]; i++) {
            check_chain(edges, kinds[i]);
            check_impossible(edges, kinds[i]);
        }
}

/* As many rows as allowed, many individuals, and more common rows than allowed. */
static void test_fan(void)
{
    picture_fan(&in.first, ZUVAROPY_MAX_ROWS);
    picture_end(&in.first);
    in.second = in.first;
    check_calls(ZUVAROPY_OUTCOME_YES, ZUVAROPY_OUTCOME_REFUSAL);
    make_chain(&in.second, ZUVAROPY_MAX_DEPTH, ~1u, NAME(1));
    check_calls(ZUVAROPY_OUTCOME_NO, ZUVAROPY_OUTCOME_YES);
}

/* Merged tables of as many rows as allowed, in 32 cards too; and of more, where each level has a value restriction and
 * an existential one. */
static void test_merged(void)
{
    unsigned int n, row;

    picture_spread(&in.first, 16, 14);
    picture_end(&in.first);
    in.second = in.first;
    check_calls(ZUVAROPY_OUTCOME_YES, ZUVAROPY_OUTCOME_REFUSAL);
    picture_kinds(&in.first, ZUVAROPY_MAX_DEPTH, ~0u);
    for (row = 0; row < ZUVAROPY_MAX_DEPTH; row++)
        picture_row(&in.first, row, ZUVAROPY_KIND_EXISTS, 0);
    picture_end(&in.first);
    CHECK(measure(VALIDATE) == ZUVAROPY_OUTCOME_YES);
    make_book();
    for (n = NORMALIZE; n < CALLS; n++) {
        CHECK(measure(n) == ZUVAROPY_OUTCOME_REFUSAL);
        CHECK(zuvaropy_question(word) == ZUVAROPY_QUESTION_MERGED);
    }
}

/* As many individuals as allowed, each reached from the one before or all from the first, against the deepest. */
static void test_individuals(void)
{
    unsigned int wide, n;

    for (wide = 0; wide < 2; wide++) {
        make_chain(&in.first, 0, 0, 0);
        make_chain(&in.second, ZUVAROPY_MAX_DEPTH, wide ? 0 : ~0u, NAME(1));
        evidence_clear(&in.evidence);
        for (n = 0; n < ZUVAROPY_MAX_INDIVIDUALS; n++)
            evidence_individual(&in.evidence, n == 0 || wide ? 0 : n - 1, 0, 0);
        evidence_end(&in.evidence);
        CHECK(measure(VERIFY) == ZUVAROPY_OUTCOME_NO);
    }
}

static void test_random(void)
{
    struct shape shape;
    unsigned int i, n;

    for (i = 0; i < PAIRS_AT_RANDOM; i++) {
        shape = random_shape();
        random_pair(&in.first, &in.second, &shape);
        make_book();
        for (n = 0; n < CALLS; n++)
            measure(n);
    }
}

/* Definitions */

static struct book definitions;
static struct picture defined;

static void begin(void)
{
    book_clear(&definitions);
}

static void define(unsigned int name)
{
    book_definition(&definitions, name, &defined);
}

/* All calls from here on, but the plain test, are made under the definitions. */
static void end(void)
{
    book_end(&definitions);
    calls_under(definitions.bytes, definitions.length);
}

/* Chains whose upper part is the picture's own and whose lower part is defined, in one step and in many. */
static void test_defined_chains(void)
{
    static const unsigned int kinds[] = {0, ~0u, 0x555, 0xAAA};
    unsigned int own, i, n;

    for (own = 0; own <= ZUVAROPY_MAX_DEPTH; own += 4)
        for (i = 0; i < sizeof kinds / sizeof kinds[0]; i++) {
            begin();
            make_chain(&defined, ZUVAROPY_MAX_DEPTH - own, kinds[i], NAME(0));
            define(5);
            end();
            make_chain(&in.first, own, kinds[i], NAME(5));
            in.second = in.first;
            check_calls(ZUVAROPY_OUTCOME_YES, ZUVAROPY_OUTCOME_YES);
            make_chain(&in.second, ZUVAROPY_MAX_DEPTH, kinds[i], NAME(1));
            check_calls(ZUVAROPY_OUTCOME_NO, ZUVAROPY_OUTCOME_YES);
        }
    begin();
    for (n = 0; n < ZUVAROPY_MAX_DEFINITIONS; n++) {
        make_chain(&defined, n < ZUVAROPY_MAX_DEPTH, 0, n < 31 ? NAME(32 + n) : 0);
        define(n < 31 ? 31 + n : 62);
    }
    end();
    make_chain(&in.first, 0, 0, NAME(31));
    in.second = in.first;
    check_calls(ZUVAROPY_OUTCOME_YES, ZUVAROPY_OUTCOME_YES);
}

/* As many rows as allowed, gained by one row and by as many as there are. */
static void test_defined_rows(void)
{
    unsigned int n;

    begin();
    picture_fan(&defined, ZUVAROPY_MAX_ROWS - 1);
    picture_end(&defined);
    define(5);
    rows_picture(&defined, ROWS(ROOT(0, 0), SOME(0, 0, 0, 0)));
    define(6);
    for (n = 10; n < 40; n++) {
        rows_picture(&defined, ROWS(ROOT(NAME(n + 1), 0)));
        define(n);
    }
    end();
    rows_picture(&in.first, ROWS(ROOT(NAME(5) | NAME(10), 0), SOME(0, 0, 0, 0)));
    in.second = in.first;
    check_calls(ZUVAROPY_OUTCOME_YES, ZUVAROPY_OUTCOME_REFUSAL);
    picture_fan(&in.first, ZUVAROPY_MAX_ROWS / 2);
    picture_end(&in.first);
    for (n = 0; n < ZUVAROPY_MAX_ROWS / 2; n++)
        picture_value(&in.first, n)[ZUVAROPY_WANTED_AT + 7] = 1 << 6;
    in.second = in.first;
    check_calls(ZUVAROPY_OUTCOME_YES, ZUVAROPY_OUTCOME_REFUSAL);
}

/* Each refusal, by a book of as many definitions as allowed. */
static void test_defined_refusals(void)
{
    unsigned int question, n;

    for (question = ZUVAROPY_QUESTION_DEFINITIONS; question <= ZUVAROPY_QUESTION_UNFOLDED_DEPTH; question++) {
        begin();
        for (n = 0; n < ZUVAROPY_MAX_DEFINITIONS; n++) {
            picture_fan(&defined, question == ZUVAROPY_QUESTION_UNFOLDED ? 200 : 3);
            picture_label(&defined, NAME(n + 1), 0, 0);
            if (question == ZUVAROPY_QUESTION_RING && n == 31)
                picture_label(&defined, NAME(0), 0, 0);
            if (question == ZUVAROPY_QUESTION_EXCLUDED && n == 31)
                picture_label(&defined, 0, NAME(0), 0);
            picture_end(&defined);
            define(question == ZUVAROPY_QUESTION_DEFINED_TWICE && n == 31 ? 0 : n);
        }
        end();
        if (question == ZUVAROPY_QUESTION_DEFINITIONS)
            definitions.bytes[definitions.length - 1] = 1;
        make_chain(&in.first, 1, 0, NAME(0));
        in.second = in.first;
        make_book();
        for (n = NORMALIZE; n < CALLS; n++) {
            CHECK(measure(n) == ZUVAROPY_OUTCOME_REFUSAL);
            CHECK(zuvaropy_question(word) == question);
        }
    }
}

static void test_defined_random(void)
{
    struct defined names;
    struct shape shape;
    unsigned int i, n;

    for (i = 0; i < PAIRS_AT_RANDOM; i++) {
        shape = random_shape();
        random_pair(&in.first, &in.second, &shape);
        random_definitions(&definitions, &names, &shape);
        random_mention(&in.first, &names, 2);
        random_mention(&in.second, &names, 2);
        calls_under(definitions.bytes, definitions.length);
        make_book();
        for (n = 0; n < CALLS; n++)
            measure(n);
    }
}

static void nothing(void)
{
}

/* Writes so many bytes of its stack, and little else. */
static void known(void)
{
    volatile uint8_t bytes[KNOWN_BYTES];
    size_t i;

    for (i = 0; i < sizeof bytes; i++)
        bytes[i] = 0;
}

/* The measure is right. */
static void test_measure(void)
{
    CHECK(taken(nothing) < 100);
    CHECK(taken(known) >= KNOWN_BYTES && taken(known) < KNOWN_BYTES + 300);
}

int main(void)
{
    unsigned int n;

    test_measure();
    test_chains();
    test_fan();
    test_merged();
    test_individuals();
    test_random();
    test_defined_chains();
    test_defined_rows();
    test_defined_refusals();
    test_defined_random();
    for (n = 0; n < CALLS; n++)
        printf("%s: %lu bytes of stack, %lu under definitions, at most %lu stated\n", calls[n].name,
               (unsigned long)calls[n].measured[0], (unsigned long)calls[n].measured[1],
               (unsigned long)calls[n].stated);
    return check_summary("stack");
}

#include "fuzz.h"

#include "calls.h"
#include "check.h"

#include <stdio.h>
#include <stdlib.h>

#define QUESTIONS (ZUVAROPY_QUESTION_UNFOLDED_DEPTH + 1)
#define INPUTS (ZUVAROPY_INPUT_DEFINITION + 1)
#define FEATURE_NUMBERS (FUZZ_COUNTERS / 8)

/* libFuzzer takes the bytes of this section for counters of its own. */
__attribute__((section("__libfuzzer_extra_counters"))) uint8_t fuzz_counters[FUZZ_COUNTERS];

static unsigned long refused[QUESTIONS][INPUTS];
static unsigned long answered[ZUVAROPY_OUTCOME_NO + 1];

void fuzz_lend(struct feed *feed, struct lent *work, struct lent *result, size_t result_needed)
{
    struct feed choices = *feed;
    unsigned int i, choice = 0;

    for (i = 0; i < FUZZ_BUFFER_CHOICES; i++)
        choice = feed_byte(feed);
    lent_begin((choice & FUZZ_ON_THE_HEAP) == 0);
    if (work != NULL)
        lent_writable(work, &choices, ZUVAROPY_WORK_BYTES);
    if (result != NULL)
        lent_writable(result, &choices, result_needed);
}

void fuzz_definitions(struct feed *feed, struct lent *definitions)
{
    static struct book book;

    feed_definitions(feed, &book);
    lent_file(definitions, book.bytes, book.length);
    calls_under(definitions->bytes, definitions->length);
}

void fuzz_return_definitions(struct lent *definitions)
{
    CHECK(lent_is_kept(definitions, 0));
    calls_under_none();
    lent_return(definitions);
}

void fuzz_met(enum feature feature, unsigned int number)
{
    fuzz_counters[(unsigned int)feature * FEATURE_NUMBERS + number % FEATURE_NUMBERS]++;
}

static unsigned int log2_of(uint32_t number)
{
    unsigned int bits = 0;

    for (; number > 0; number >>= 1)
        bits++;
    return bits;
}

static int can_refuse(unsigned int question, unsigned int input)
{
    const struct refusable *r;

    for (r = fuzz_target.refusable; r->first != 0; r++)
        if (question >= r->first && question <= r->last && input == r->input)
            return 1;
    return 0;
}

/* Row and byte go together, and a question that says none has 0 for both. */
static void check_place(uint64_t word)
{
    const unsigned int question = zuvaropy_question(word);
    const int placed = question >= ZUVAROPY_QUESTION_HEAD && question <= ZUVAROPY_QUESTION_IMPOSSIBLE;
    const unsigned int row = (unsigned int)(word >> 16 & 0xFFFF), byte = (unsigned int)(word & 0xFFFF);

    CHECK(row <= (placed ? ZUVAROPY_MAX_ROWS : 0));
    CHECK(byte == row * ZUVAROPY_ROW_BYTES);
    CHECK(zuvaropy_row(word) == row && zuvaropy_byte(word) == byte);
}

static void check_refusal(uint64_t word)
{
    const unsigned int question = zuvaropy_question(word), input = zuvaropy_input(word);
    const unsigned int number = (unsigned int)(word >> ZUVAROPY_CARD_SHIFT & 0xFF);

    check_place(word);
    CHECK(number < ZUVAROPY_MAX_CARDS);
    CHECK(number == zuvaropy_card(word) + zuvaropy_definition(word)); /* one of them, or neither */
    CHECK(can_refuse(question, input));
    if (!can_refuse(question, input))
        return;
    refused[question][input]++;
    fuzz_met(FEATURE_REFUSAL, question * INPUTS + input);
    fuzz_met(FEATURE_CARD, question * ZUVAROPY_MAX_CARDS + number);
}

void fuzz_check_word(uint64_t word)
{
    const unsigned int outcome = zuvaropy_outcome(word);

    if (outcome == ZUVAROPY_OUTCOME_REFUSAL) {
        check_refusal(word);
        return;
    }
    CHECK(outcome <= fuzz_target.outcomes);
    if (outcome > fuzz_target.outcomes)
        return;
    CHECK(word == ((uint64_t)outcome << ZUVAROPY_OUTCOME_SHIFT | zuvaropy_value(word)));
    answered[outcome]++;
    fuzz_met(FEATURE_ANSWER, outcome * 64 + log2_of(zuvaropy_value(word)));
}

unsigned long fuzz_answered(void)
{
    return answered[ZUVAROPY_OUTCOME_YES] + answered[ZUVAROPY_OUTCOME_NO];
}

void fuzz_check_met(void)
{
    const struct refusable *r;
    unsigned int question, outcome;

    for (r = fuzz_target.refusable; r->first != 0; r++)
        for (question = r->first; question <= r->last; question++) {
            CHECK(refused[question][r->input] > 0);
            if (refused[question][r->input] == 0)
                printf("  never met: question %u, input %u\n", question, r->input);
        }
    for (outcome = ZUVAROPY_OUTCOME_YES; outcome <= fuzz_target.outcomes; outcome++)
        CHECK(answered[outcome] > 0);
}

int fuzz_end(void)
{
    if (check_failed() > 0) {
        fflush(stdout);
        abort();
    }
    return 0;
}

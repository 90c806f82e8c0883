/*
 * What every fuzz target is made of. A target is one call: it takes the fuzz
 * input apart, makes the call and checks the answer, by what must be so of any
 * answer and by other calls. It is linked with libFuzzer or with driver.c.
 */

#ifndef FUZZ_H
#define FUZZ_H

#include "lent.h"

/* Questions from one to another that can refuse this input. */
struct refusable {
    unsigned int first, last, input;
};

struct target {
    const char *name;
    const char *inputs;                /* a letter for each: picture, evidence, book, definitions */
    const struct refusable *refusable; /* all that the call can refuse; the last is {0, 0, 0} */
    unsigned int outcomes;             /* answers: ZUVAROPY_OUTCOME_YES, or NO for both */
};

extern const struct target fuzz_target;

/* What definitions can be refused by, and a picture because of them. */
#define DEFINITIONS_REFUSABLE                                                                                          \
    {ZUVAROPY_QUESTION_DEFINITIONS, ZUVAROPY_QUESTION_DEFINED_TWICE, ZUVAROPY_INPUT_DEFINITIONS},                      \
        {ZUVAROPY_QUESTION_RING, ZUVAROPY_QUESTION_RING, ZUVAROPY_INPUT_DEFINITIONS},                                  \
        {ZUVAROPY_QUESTION_HEAD, ZUVAROPY_QUESTION_IMPOSSIBLE, ZUVAROPY_INPUT_DEFINITION},                             \
        UNDER_REFUSABLE(ZUVAROPY_INPUT_DEFINITION)
#define UNDER_REFUSABLE(input)                                                                                         \
    {ZUVAROPY_QUESTION_EXCLUDED, ZUVAROPY_QUESTION_EXCLUDED, input},                                                   \
        {ZUVAROPY_QUESTION_UNFOLDED, ZUVAROPY_QUESTION_UNFOLDED_DEPTH, input}

int LLVMFuzzerTestOneInput(const uint8_t *data, size_t size);

/* The choices of the two buffers for writing: they come before those of the
 * inputs, also where a call has fewer buffers. The last one also says where the
 * files are. */
#define FUZZ_BUFFER_CHOICES 4
#define FUZZ_ON_THE_HEAP 0x04

/* Takes the buffers for writing; a call that has none passes NULL. */
void fuzz_lend(struct feed *feed, struct lent *work, struct lent *result, size_t result_needed);

/* Takes the definitions. Until they are returned, calls are made under them, also
 * those that check the first. */
void fuzz_definitions(struct feed *feed, struct lent *definitions);
void fuzz_return_definitions(struct lent *definitions);

/* The word that was answered is one that the call can give, and nothing in it is
 * set that must not be. Counts it. */
void fuzz_check_word(uint64_t word);

/* Something that was met, for the fuzzer to tell inputs apart by. */
enum feature { FEATURE_REFUSAL, FEATURE_CARD, FEATURE_ANSWER, FEATURE_FIRST, FEATURE_SECOND, FEATURE_CHECKED };
void fuzz_met(enum feature feature, unsigned int number);

#define FUZZ_COUNTERS 4096
extern uint8_t fuzz_counters[FUZZ_COUNTERS];

/* How many words were no refusals. */
unsigned long fuzz_answered(void);

/* Every refusal and every answer of the call was met in this run. */
void fuzz_check_met(void);

/* The end of a run: if a check has failed, the program stops. */
int fuzz_end(void);

#endif

#include "most_specific_reference.h"

#include "calls.h"
#include "definitions_reference.h"
#include "normal_reference.h"
#include "reference.h"

struct part {
    const uint8_t *bytes;
    size_t length;
};

static struct part sought;                    /* the case */
static struct part cards[ZUVAROPY_MAX_CARDS]; /* those of the book */
static unsigned int card_count;
static uint32_t subsuming; /* those that subsume the case */

/* The questions. */

static size_t number(const uint8_t *two_bytes)
{
    return two_bytes[0] * (size_t)256 + two_bytes[1];
}

/* Finds the cards; true if the book has its form. */
static bool find_cards(const struct book *book)
{
    size_t at = 0, left, length;

    for (card_count = 0;; card_count++) {
        left = book->length - at;
        if (left < ZUVAROPY_HEAD_BYTES)
            return false;
        length = number(book->bytes + at + ZUVAROPY_TAG_BYTES);
        if (book->bytes[at] == ZUVAROPY_TAG_END)
            return length == ZUVAROPY_END_VALUE_BYTES && left == ZUVAROPY_HEAD_BYTES;
        if (book->bytes[at] != ZUVAROPY_TAG_CARD || card_count == ZUVAROPY_MAX_CARDS ||
            left < ZUVAROPY_CARD_BYTES(length))
            return false;
        cards[card_count].bytes = book->bytes + at + ZUVAROPY_HEAD_BYTES;
        cards[card_count].length = length;
        at += ZUVAROPY_CARD_BYTES(length);
    }
}

static uint64_t asked(unsigned int question)
{
    return (uint64_t)question << ZUVAROPY_QUESTION_SHIFT;
}

/* 2 to 13. This and the next give the word of a refusal without input and card; 0 if there is none. */
static uint64_t ask_reading(const struct part *picture)
{
    const struct reference read = reference_read(picture->bytes, picture->length);

    return asked(read.question) | reference_place(&read);
}

/* 14. */
static uint64_t ask_merged(const struct part *picture)
{
    static struct normal_reference normal;

    normal_reference(&normal, picture->bytes, picture->length);
    return asked(normal.question);
}

static uint64_t of_input(unsigned int input, unsigned int card)
{
    return (uint64_t)input << ZUVAROPY_INPUT_SHIFT | (uint64_t)card << ZUVAROPY_CARD_SHIFT;
}

/* The first card that a question refuses; 0 if there is none. */
static uint64_t ask_cards(uint64_t (*ask)(const struct part *))
{
    unsigned int n;
    uint64_t word;

    for (n = 0; n < card_count; n++) {
        word = ask(&cards[n]);
        if (word != 0)
            return word | of_input(ZUVAROPY_INPUT_CARD, n);
    }
    return 0;
}

static uint64_t ask_case(uint64_t (*ask)(const struct part *))
{
    const uint64_t word = ask(&sought);

    return word != 0 ? word | of_input(ZUVAROPY_INPUT_FIRST, 0) : 0;
}

/* 25 to 30, and 2 to 13 of the definitions. */
static uint64_t ask_definitions(void)
{
    struct given pictures[1 + ZUVAROPY_MAX_CARDS] = {{sought.bytes, sought.length, ZUVAROPY_INPUT_FIRST, 0}};
    unsigned int n;

    for (n = 0; n < card_count; n++) {
        const struct given card = {cards[n].bytes, cards[n].length, ZUVAROPY_INPUT_CARD, n};

        pictures[1 + n] = card;
    }
    return reference_definitions(calls_definitions(), pictures, 1 + card_count);
}

static void unfold(struct part *picture, struct picture *unfolded)
{
    reference_unfold(unfolded, picture->bytes, picture->length);
    picture->bytes = unfolded->bytes;
    picture->length = unfolded->length;
}

/* From here on the case and the cards are unfolded. */
static void unfold_all(void)
{
    static struct picture unfolded[1 + ZUVAROPY_MAX_CARDS];
    unsigned int n;

    unfold(&sought, &unfolded[0]);
    for (n = 0; n < card_count; n++)
        unfold(&cards[n], &unfolded[1 + n]);
}

/* The word of the refusal; 0 if there is none. */
static uint64_t ask_all(const struct book *book)
{
    uint64_t word = ask_case(ask_reading);

    if (word == 0 && !find_cards(book))
        word = asked(ZUVAROPY_QUESTION_BOOK) | of_input(ZUVAROPY_INPUT_BOOK, 0);
    if (word == 0)
        word = ask_cards(ask_reading);
    if (word == 0)
        word = ask_definitions();
    if (word != 0)
        return word;
    unfold_all();
    word = ask_case(ask_merged);
    return word != 0 ? word : ask_cards(ask_merged);
}

/* The cards */

/* Of unfolded pictures, so that no definitions are needed. */
static bool subsumes(const struct part *general, const struct part *specific)
{
    static uint8_t work[ZUVAROPY_WORK_BYTES], evidence[ZUVAROPY_MAX_EVIDENCE_BYTES];
    const struct definitions under = calls_definitions();
    uint64_t word;

    calls_under_none();
    word = call_subsumes(specific->bytes, specific->length, general->bytes, general->length, work, sizeof work,
                         evidence, sizeof evidence);
    calls_under(under.bytes, under.length);
    return zuvaropy_outcome(word) == ZUVAROPY_OUTCOME_YES;
}

static uint32_t bit(unsigned int card)
{
    return UINT32_C(1) << card;
}

/* The cards that subsume the case. */
static uint32_t find_subsuming(void)
{
    uint32_t found = 0;
    unsigned int n;

    for (n = 0; n < card_count; n++)
        if (subsumes(&cards[n], &sought))
            found |= bit(n);
    return found;
}

/* Does card n subsume another card that subsumes the case and that does not subsume it in return? */
static bool is_passed_over(unsigned int n)
{
    unsigned int m;

    for (m = 0; m < card_count; m++)
        if (m != n && (subsuming & bit(m)) != 0 && subsumes(&cards[n], &cards[m]) && !subsumes(&cards[m], &cards[n]))
            return true;
    return false;
}

uint64_t reference_most_specific(const struct lookup *l)
{
    uint32_t found = 0;
    uint64_t word;
    unsigned int n;

    sought.bytes = l->case_picture.bytes;
    sought.length = l->case_picture.length;
    word = ask_all(&l->book);
    if (word != 0)
        return word;
    subsuming = find_subsuming();
    for (n = 0; n < card_count; n++)
        if ((subsuming & bit(n)) != 0 && !is_passed_over(n))
            found |= bit(n);
    return (uint64_t)ZUVAROPY_OUTCOME_YES << ZUVAROPY_OUTCOME_SHIFT | found;
}

uint32_t reference_most_specific_subsuming(void)
{
    return subsuming;
}

bool reference_most_specific_subsumes(unsigned int n, unsigned int m)
{
    return subsumes(&cards[n], &cards[m]);
}

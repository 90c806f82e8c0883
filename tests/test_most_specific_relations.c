/*
 * Every way in which up to five cards can subsume each other, in their own book
 * and, for up to four, again and again in a full one. A card has a name for each
 * card that subsumes it; the case has all names, or all but one, and then the card
 * of that name and all that it subsumes do not subsume the case.
 */

#include "check.h"
#include "most_specific.h"
#include "rows.h"

#define MOST 5
#define MOST_AGAIN 4
#define CARDS ZUVAROPY_MAX_CARDS
#define CARD(n) (UINT32_C(1) << (n))

static struct lookup lookup;

/* Card n subsumes card m. Past the last card there is one that subsumes none. */
static int subsumes[MOST + 1][MOST];

/* The relation that a number stands for: a bit for each two cards, both ways. */
static void make_relation(unsigned int count, unsigned long number)
{
    unsigned int n, m;

    for (n = 0; n <= count; n++)
        for (m = 0; m < count; m++) {
            subsumes[n][m] = n == m || (number & 1) != 0;
            if (n != m)
                number >>= 1;
        }
}

static int is_transitive(unsigned int count)
{
    unsigned int n, m, k;

    for (n = 0; n < count; n++)
        for (m = 0; m < count; m++)
            for (k = 0; k < count; k++)
                if (subsumes[n][m] && subsumes[m][k] && !subsumes[n][k])
                    return 0;
    return 1;
}

static void put_card(unsigned int count, unsigned int card)
{
    static struct picture picture;
    uint64_t names = 0;
    unsigned int n;

    for (n = 0; n < count; n++)
        if (subsumes[n][card])
            names |= NAME(n);
    rows_picture(&picture, ROWS(ROOT(names, 0)));
    book_card(&lookup.book, &picture);
}

/* Does card n subsume the case that lacks this name? */
static int subsumes_case(unsigned int n, unsigned int lacking)
{
    return !subsumes[lacking][n];
}

static int is_found(unsigned int count, unsigned int n, unsigned int lacking)
{
    unsigned int m;

    if (!subsumes_case(n, lacking))
        return 0;
    for (m = 0; m < count; m++)
        if (subsumes_case(m, lacking) && subsumes[n][m] && !subsumes[m][n])
            return 0;
    return 1;
}

/* Each case, in a book of so many cards: those of the relation, in turn. */
static void check_book(unsigned int count, unsigned int cards, unsigned long at)
{
    unsigned int n, lacking;
    uint32_t found;

    book_clear(&lookup.book);
    for (n = 0; n < cards; n++)
        put_card(count, n % count);
    book_end(&lookup.book);
    for (lacking = 0; lacking <= count; lacking++) {
        rows_picture(&lookup.case_picture, ROWS(ROOT((NAME(count) - 1) & ~NAME(lacking), 0)));
        found = 0;
        for (n = 0; n < cards; n++)
            if (is_found(count, n % count, lacking))
                found |= CARD(n);
        most_specific_room(&lookup, ZUVAROPY_WORK_BYTES, 0xA5, word_cards(found), at);
    }
}

/* How many there are is known: they are the topologies on so many points. */
static void test_relations(void)
{
    static const unsigned int known[MOST + 1] = {1, 1, 4, 29, 355, 6942};
    unsigned int count, relations;
    unsigned long number;

    for (count = 1; count <= MOST; count++) {
        relations = 0;
        for (number = 0; number >> count * (count - 1) == 0; number++) {
            make_relation(count, number);
            if (!is_transitive(count))
                continue;
            relations++;
            check_book(count, count, number);
            if (count <= MOST_AGAIN)
                check_book(count, CARDS, number);
        }
        CHECK(relations == known[count]);
    }
}

int main(void)
{
    test_relations();
    return check_summary("most specific, relations");
}

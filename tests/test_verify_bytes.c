/*
 * Good evidence with every single byte changed to every other value, cut off at
 * every byte, and with bytes put in, taken out and added: the library and the
 * reference agree on all of it.
 */

#include "check.h"
#include "rows.h"
#include "verify.h"
#include "witness.h"

#include <string.h>

#define R 8
#define S 9

static struct inputs in;
static struct evidence good;

/* How often each word was met: by question, and taken. */
static unsigned long met[ZUVAROPY_QUESTION_REFUTED + 1];

static void check_evidence(unsigned long at)
{
    met[zuvaropy_question(verify_room(&in, ZUVAROPY_WORK_BYTES, at % 2 ? 0xA5 : 0x00, at))]++;
}

static void test_changed_bytes(void)
{
    size_t at;
    unsigned int value;

    for (at = 0; at < good.length; at++) {
        in.evidence = good;
        for (value = 0; value <= 0xFF; value++) {
            in.evidence.bytes[at] = (uint8_t)value;
            check_evidence(at);
        }
    }
}

/* Cut off, no rest of evidence is evidence. */
static void test_cuts(void)
{
    in.evidence = good;
    for (in.evidence.length = 0; in.evidence.length < good.length; in.evidence.length++)
        verify_check(&in, word_evidence(16), in.evidence.length);
}

static void test_added_bytes(void)
{
    static const uint8_t bytes[] = {0x00, 0x2F, 0x41, 0x42, 0xFF};
    unsigned int count, i;

    for (i = 0; i < sizeof bytes; i++) {
        in.evidence = good;
        for (count = 1; count <= 2 * ZUVAROPY_INDIVIDUAL_BYTES; count++) {
            evidence_byte(&in.evidence, bytes[i]);
            verify_check(&in, word_evidence(16), count);
        }
    }
}

/* Bytes put in or taken out at every place, up to a whole field. */
static void test_moved_bytes(void)
{
    static const unsigned int counts[] = {1, 2, 3, ZUVAROPY_INDIVIDUAL_BYTES};
    unsigned int i;
    size_t at;

    for (i = 0; i < sizeof counts / sizeof counts[0]; i++)
        for (at = 0; at + counts[i] <= good.length; at++) {
            in.evidence = good;
            memcpy(in.evidence.bytes + at, good.bytes + at + counts[i], good.length - at - counts[i]);
            in.evidence.length -= counts[i];
            check_evidence(at);
            in.evidence = good;
            memcpy(in.evidence.bytes + at + counts[i], good.bytes + at, good.length - at);
            in.evidence.length += counts[i];
            check_evidence(at);
        }
}

static void test_evidence(uint64_t wanted)
{
    verify_check(&in, wanted, 0);
    good = in.evidence;
    test_changed_bytes();
    test_cuts();
    test_added_bytes();
    test_moved_bytes();
}

int main(void)
{
    unsigned int question;

    rows_picture(&in.first, ROWS(ROOT(0, 0), SOME(0, R, NAME(3) | NAME(5), 0)));
    rows_picture(&in.second, ROWS(ROOT(0, 0), SOME(0, R, NAME(3), 0), SOME(0, R, NAME(5), 0)));
    evidence_map(&in.evidence, IMAGES(0, 1, 1));
    test_evidence(word_map_taken());

    /* Another row would do for most rows, and impossible ones for some. */
    rows_picture(&in.first,
                 ROWS(ROOT(NAME(0), NAME(1)), SOME(0, 0, NAME(2), 0), SOME(1, 0, NAME(2), 0), SOME(0, 0, 0, NAME(3)),
                      SOME(0, 0, NAME(2), NAME(3)), SOME(4, 0, NAME(2), NAME(3)), ALL_NONE(0, 1), ALL_NONE(4, 1)));
    rows_picture(&in.second, ROWS(ROOT(0, NAME(1)), SOME(0, 0, NAME(2), 0), SOME(1, 0, 0, 0), SOME(0, 0, 0, NAME(3)),
                                  ALL(0, 1, 0, 0), SOME(4, 0, NAME(5), NAME(6)), SOME(5, 1, 0, 0)));
    CHECK(witness_make(&in));
    test_evidence(word_map_taken());

    rows_picture(&in.first, ROWS(ROOT(0, 0), SOME(0, R, NAME(3), 0), SOME(0, R, NAME(5), 0)));
    rows_picture(&in.second, ROWS(ROOT(0, 0), SOME(0, R, NAME(3) | NAME(5), 0)));
    CHECK(!witness_make(&in));
    test_evidence(word_refutation_taken());

    rows_picture(&in.first, ROWS(ROOT(NAME(0), NAME(1)), ALL(0, 0, 0, NAME(1)), SOME(0, 0, NAME(2), 0),
                                 SOME(2, 1, NAME(3), 0), ALL_NONE(0, 1)));
    rows_picture(&in.second, ROWS(ROOT(NAME(0), 0), ALL(0, 0, 0, NAME(1)), SOME(1, 1, NAME(3), 0)));
    CHECK(!witness_make(&in));
    test_evidence(word_refutation_taken());

    /* Every answer was met. */
    CHECK(met[0] > 1000);
    for (question = ZUVAROPY_QUESTION_FORM; question <= ZUVAROPY_QUESTION_REFUTED; question++)
        CHECK(met[question] > 5);
    return check_summary("verify, bytes");
}

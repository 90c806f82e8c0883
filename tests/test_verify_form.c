/*
 * Question 16: evidence that has neither form, by its tags, its lengths, the
 * number of its fields, or what follows its end field.
 */

#include "calls.h"
#include "check.h"
#include "rows.h"
#include "verify.h"

#include <string.h>

#define R 8
#define S 9
#define TAGS 256

static struct inputs in;

/* A pair of which the second has three rows, and the map that is taken for it. */
static void make_map(void)
{
    rows_picture(&in.first, ROWS(ROOT(0, 0), SOME(0, R, NAME(3) | NAME(5), 0)));
    rows_picture(&in.second, ROWS(ROOT(0, 0), SOME(0, R, NAME(3), 0), SOME(0, R, NAME(5), 0)));
    evidence_map(&in.evidence, IMAGES(0, 1, 1));
}

/* The pair turned round, and so many individuals that are taken for it. */
static void make_refutation(unsigned int individuals)
{
    unsigned int i;

    rows_picture(&in.first, ROWS(ROOT(0, 0), SOME(0, R, NAME(3), 0), SOME(0, R, NAME(5), 0)));
    rows_picture(&in.second, ROWS(ROOT(0, 0), SOME(0, R, NAME(3) | NAME(5), 0)));
    evidence_clear(&in.evidence);
    evidence_individual(&in.evidence, 0, 0, 0);
    for (i = 1; i < individuals; i++)
        evidence_individual(&in.evidence, 0, R, NAME(3 + i % 2 * 2));
    evidence_end(&in.evidence);
}

static void check_form(unsigned long at)
{
    verify_check(&in, word_evidence(16), at);
}

/* No field, or no field before the end field. */
static void test_nothing(void)
{
    unsigned int length;

    for (length = 0; length <= ZUVAROPY_HEAD_BYTES; length++) {
        make_map();
        evidence_clear(&in.evidence);
        evidence_end(&in.evidence);
        in.evidence.length = length;
        check_form(length);
    }
    evidence_end(&in.evidence);
    check_form(0);
}

/* Every tag in the place of each, for the map, an individual and the end field. */
static void test_tags(void)
{
    unsigned int tag, i;

    for (tag = 0; tag < TAGS; tag++) {
        make_map();
        in.evidence.bytes[0] = (uint8_t)tag;
        CHECK_WORD(verify_any(&in, tag), tag == 0x41 ? word_map_taken() : word_evidence(16), tag);
        make_map();
        in.evidence.bytes[in.evidence.length - ZUVAROPY_HEAD_BYTES] = (uint8_t)tag;
        CHECK_WORD(verify_any(&in, tag), tag == 0x2F ? word_map_taken() : word_evidence(16), tag);
        for (i = 0; i < 3; i++) {
            make_refutation(3);
            evidence_field(&in.evidence, i)[0] = (uint8_t)tag;
            CHECK_WORD(verify_any(&in, tag), tag == 0x42 ? word_refutation_taken() : word_evidence(16), tag);
        }
        make_refutation(3);
        evidence_field(&in.evidence, 3)[0] = (uint8_t)tag;
        CHECK_WORD(verify_any(&in, tag), tag == 0x2F ? word_refutation_taken() : word_evidence(16), tag);
    }
}

/* Every length in each head, with the bytes as they are. */
static void test_lengths(void)
{
    unsigned int length, i;

    for (length = 0; length <= 0xFFFF; length += length < 600 ? 1 : 1 + length / 7) {
        make_map();
        evidence_put(in.evidence.bytes + ZUVAROPY_TAG_BYTES, length);
        CHECK_WORD(verify_any(&in, length), length == 6 ? word_map_taken() : word_evidence(16), length);
        make_map();
        evidence_put(in.evidence.bytes + in.evidence.length - 2, length);
        CHECK_WORD(verify_any(&in, length), length == 0 ? word_map_taken() : word_evidence(16), length);
        for (i = 0; i < 3; i++) {
            make_refutation(3);
            evidence_put(evidence_field(&in.evidence, i) + ZUVAROPY_TAG_BYTES, length);
            CHECK_WORD(verify_any(&in, length), length == 11 ? word_refutation_taken() : word_evidence(16), length);
        }
        make_refutation(3);
        evidence_put(evidence_field(&in.evidence, 3) + ZUVAROPY_TAG_BYTES, length);
        CHECK_WORD(verify_any(&in, length), length == 0 ? word_refutation_taken() : word_evidence(16), length);
    }
}

/* Heads whose lengths are wrong, but are those of the values that follow. */
static void test_values(void)
{
    unsigned int length, i;

    for (length = 0; length < 40; length++) {
        make_map();
        evidence_clear(&in.evidence);
        evidence_head(&in.evidence, 0x41, length);
        for (i = 0; i < length; i++)
            evidence_byte(&in.evidence, i == 3 || i == 5);
        evidence_end(&in.evidence);
        CHECK_WORD(verify_any(&in, length), length == 6 ? word_map_taken() : word_evidence(16), length);

        make_refutation(3);
        in.evidence.length = 2 * ZUVAROPY_INDIVIDUAL_BYTES;
        evidence_head(&in.evidence, 0x42, length);
        for (i = 0; i < length; i++)
            evidence_byte(&in.evidence, i == 2 ? R : i == 10 ? 1 << 3 : 0);
        evidence_end(&in.evidence);
        CHECK_WORD(verify_any(&in, length), length == 11 ? word_refutation_taken() : word_evidence(16), length);

        if (length > 0) {
            make_map();
            evidence_put(in.evidence.bytes + in.evidence.length - 2, length);
            for (i = 0; i < length; i++)
                evidence_byte(&in.evidence, 0);
            check_form(length);
            make_refutation(3);
            evidence_put(in.evidence.bytes + in.evidence.length - 2, length);
            for (i = 0; i < length; i++)
                evidence_byte(&in.evidence, 0);
            check_form(length);
        }
    }
}

static void append(const struct evidence *e)
{
    memcpy(in.evidence.bytes + in.evidence.length, e->bytes, e->length);
    in.evidence.length += e->length;
}

/* Fields of both forms, fields of pictures, and one field or file too many. */
static void test_mixed(void)
{
    static struct evidence map, refutation, picture;
    static const struct evidence *parts[] = {&map, &refutation, &picture};
    unsigned int i, k, ends;

    make_map();
    map = in.evidence;
    picture.length = in.second.length;
    memcpy(picture.bytes, in.second.bytes, picture.length);
    make_refutation(3);
    refutation = in.evidence;
    for (i = 0; i < 3; i++)
        for (k = 0; k < 3; k++)
            for (ends = 0; ends < 2; ends++) { /* with or without the first one's end field */
                make_map();
                evidence_clear(&in.evidence);
                append(parts[i]);
                if (!ends)
                    in.evidence.length -= ZUVAROPY_HEAD_BYTES;
                append(parts[k]);
                if (i == 1 && k == 1 && !ends)
                    verify_check(&in, word_evidence(22), 0); /* six individuals: a good form */
                else
                    check_form(9 * ends + 3 * i + k);
            }
    make_map();
    in.evidence = picture;
    check_form(0);
}

/* The end field is missing, in whole or in part, or stands twice. */
static void test_ends(void)
{
    unsigned int length;

    for (length = 1; length <= ZUVAROPY_HEAD_BYTES; length++) {
        make_map();
        in.evidence.length -= length;
        check_form(length);
        make_refutation(1);
        in.evidence.length -= length;
        check_form(length);
        make_refutation(3);
        in.evidence.length -= length;
        check_form(length);
    }
    make_map();
    evidence_end(&in.evidence);
    check_form(0);
    make_refutation(3);
    evidence_end(&in.evidence);
    check_form(0);
}

/* Maps have as many images as the second normal table has rows, whatever the picture has. */
static void test_images(void)
{
    const struct {
        struct row_list picture;
        unsigned int rows;
    } seconds[] = {
        {{ROWS(ROOT(NAME(3), NAME(3)))}, 1},
        {{ROWS(ROOT(0, 0), ALL(0, R, NAME(3), 0), ALL(0, R, NAME(5), 0))}, 2},
        {{ROWS(ROOT(0, 0), ALL(0, R, 0, 0))}, 1},
        {{ROWS(ROOT(0, 0), ALL_NONE(0, R), SOME(0, R, 0, 0))}, 1},
        {{ROWS(ROOT(0, 0), ALL(0, R, 0, 0), SOME(1, S, NAME(1), 0), SOME(0, R, NAME(2), 0))}, 5},
    };
    static const unsigned int images[8] = {0};
    unsigned int i, rows;

    rows_picture(&in.first, ROWS(ROOT_NONE));
    for (i = 0; i < sizeof seconds / sizeof seconds[0]; i++) {
        row_list_picture(&in.second, &seconds[i].picture);
        for (rows = 0; rows <= 8; rows++) {
            evidence_map(&in.evidence, images, rows);
            verify_check(&in, rows == seconds[i].rows ? word_map_taken() : word_evidence(16), rows);
        }
    }
}

/* As many individuals as there may be, and more. */
static void test_most(void)
{
    static uint8_t large[ZUVAROPY_REFUTATION_BYTES(65536 + 3)], work[ZUVAROPY_WORK_BYTES];
    unsigned int i;

    for (i = 3326; i <= 3331; i++) {
        make_refutation(i);
        verify_check(&in, i <= 3328 ? word_refutation_taken() : word_evidence(16), i);
    }

    /* Numbers of individuals that are small again in 16 bits. */
    make_refutation(3);
    for (i = 0; i < 65536 + 3; i++)
        memcpy(large + (size_t)i * ZUVAROPY_INDIVIDUAL_BYTES, evidence_field(&in.evidence, i < 3 ? i : 2),
               ZUVAROPY_INDIVIDUAL_BYTES);
    for (i = 65535; i <= 65536 + 3; i++) {
        uint8_t *end = large + (size_t)i * ZUVAROPY_INDIVIDUAL_BYTES;

        memcpy(end, evidence_field(&in.evidence, 3), ZUVAROPY_HEAD_BYTES);
        CHECK_WORD(call_verify(in.first.bytes, in.first.length, in.second.bytes, in.second.length, large,
                               ZUVAROPY_REFUTATION_BYTES((size_t)i), work, sizeof work),
                   word_evidence(16), i);
        memcpy(end, evidence_field(&in.evidence, 2), ZUVAROPY_HEAD_BYTES);
    }
}

int main(void)
{
    test_nothing();
    test_tags();
    test_lengths();
    test_values();
    test_mixed();
    test_ends();
    test_images();
    test_most();
    return check_summary("verify, form");
}

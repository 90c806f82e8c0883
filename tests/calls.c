#include "calls.h"

#include <string.h>

static struct definitions given;
static int are_given;

struct definitions calls_none(void)
{
    const struct definitions none = {ZUVAROPY_NO_DEFINITIONS};

    return none;
}

void calls_under(const uint8_t *bytes, size_t length)
{
    given.bytes = bytes;
    given.length = length;
    are_given = 1;
}

void calls_under_none(void)
{
    are_given = 0;
}

struct definitions calls_definitions(void)
{
    return are_given ? given : calls_none();
}

int calls_are_under(void)
{
    const struct definitions under = calls_definitions(), none = calls_none();

    return under.length != none.length || memcmp(under.bytes, none.bytes, none.length) != 0;
}

uint64_t call_validate(const uint8_t *picture, size_t picture_len)
{
    return zuvaropy_validate(picture, picture_len);
}

uint64_t call_normalize(const uint8_t *picture, size_t picture_len, uint8_t *result, size_t result_len)
{
    const struct definitions under = calls_definitions();

    return zuvaropy_normalize(under.bytes, under.length, picture, picture_len, result, result_len);
}

uint64_t call_subsumes(const uint8_t *first, size_t first_len, const uint8_t *second, size_t second_len, uint8_t *work,
                       size_t work_len, uint8_t *result, size_t result_len)
{
    const struct definitions under = calls_definitions();

    return zuvaropy_subsumes(under.bytes, under.length, first, first_len, second, second_len, work, work_len, result,
                             result_len);
}

uint64_t call_lcs(const uint8_t *first, size_t first_len, const uint8_t *second, size_t second_len, uint8_t *work,
                  size_t work_len, uint8_t *result, size_t result_len)
{
    const struct definitions under = calls_definitions();

    return zuvaropy_lcs(under.bytes, under.length, first, first_len, second, second_len, work, work_len, result,
                        result_len);
}

uint64_t call_verify(const uint8_t *first, size_t first_len, const uint8_t *second, size_t second_len,
                     const uint8_t *evidence, size_t evidence_len, uint8_t *work, size_t work_len)
{
    const struct definitions under = calls_definitions();

    return zuvaropy_verify(under.bytes, under.length, first, first_len, second, second_len, evidence, evidence_len,
                           work, work_len);
}

uint64_t call_most_specific(const uint8_t *case_picture, size_t case_picture_len, const uint8_t *book, size_t book_len,
                            uint8_t *work, size_t work_len)
{
    const struct definitions under = calls_definitions();

    return zuvaropy_most_specific(under.bytes, under.length, case_picture, case_picture_len, book, book_len, work,
                                  work_len);
}

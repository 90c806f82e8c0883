#include "second_unit.h"

#include "zuvaropy.h"

unsigned int second_unit_question(uint64_t word)
{
    return zuvaropy_question(word);
}

const char *second_unit_text(unsigned int question)
{
    return zuvaropy_question_text(question);
}

uint64_t second_unit_validate(const uint8_t *picture, size_t picture_len)
{
    return zuvaropy_validate(picture, picture_len);
}

uint64_t second_unit_normalize(const uint8_t *picture, size_t picture_len, uint8_t *result, size_t result_len)
{
    return zuvaropy_normalize(ZUVAROPY_NO_DEFINITIONS, picture, picture_len, result, result_len);
}

uint64_t second_unit_subsumes(const uint8_t *first, size_t first_len, const uint8_t *second, size_t second_len,
                              uint8_t *work, size_t work_len, uint8_t *result, size_t result_len)
{
    return zuvaropy_subsumes(ZUVAROPY_NO_DEFINITIONS, first, first_len, second, second_len, work, work_len, result,
                             result_len);
}

uint64_t second_unit_verify(const uint8_t *first, size_t first_len, const uint8_t *second, size_t second_len,
                            const uint8_t *evidence, size_t evidence_len, uint8_t *work, size_t work_len)
{
    return zuvaropy_verify(ZUVAROPY_NO_DEFINITIONS, first, first_len, second, second_len, evidence, evidence_len,
                           work, work_len);
}

uint64_t second_unit_lcs(const uint8_t *first, size_t first_len, const uint8_t *second, size_t second_len,
                         uint8_t *work, size_t work_len, uint8_t *result, size_t result_len)
{
    return zuvaropy_lcs(ZUVAROPY_NO_DEFINITIONS, first, first_len, second, second_len, work, work_len, result,
                        result_len);
}

uint64_t second_unit_most_specific(const uint8_t *case_picture, size_t case_picture_len, const uint8_t *book,
                                   size_t book_len, uint8_t *work, size_t work_len)
{
    return zuvaropy_most_specific(ZUVAROPY_NO_DEFINITIONS, case_picture, case_picture_len, book, book_len, work,
                                  work_len);
}

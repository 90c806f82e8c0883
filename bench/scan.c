#include "scan.h"

#include "zuvaropy.h"

static uint64_t refusal(unsigned int question, unsigned int row)
{
    return (uint64_t)question << ZUVAROPY_QUESTION_SHIFT | (uint64_t)ZUVAROPY_INPUT_FIRST << ZUVAROPY_INPUT_SHIFT |
           (uint64_t)row << ZUVAROPY_ROW_SHIFT | (uint64_t)row * ZUVAROPY_ROW_BYTES << ZUVAROPY_BYTE_SHIFT;
}

static unsigned int number(const uint8_t *two_bytes)
{
    return (unsigned int)two_bytes[0] << 8 | two_bytes[1];
}

uint64_t scan_validate(const uint8_t *picture, size_t length)
{
    uint8_t depth[ZUVAROPY_MAX_ROWS];
    const uint8_t *at = picture;
    size_t left = length;
    unsigned int row;

    for (row = 0;; row++) {
        unsigned int tag, value_length, parent, kind, role;

        if (left < ZUVAROPY_HEAD_BYTES)
            return refusal(ZUVAROPY_QUESTION_HEAD, row);
        tag = at[0];
        value_length = number(at + ZUVAROPY_TAG_BYTES);
        at += ZUVAROPY_HEAD_BYTES;
        left -= ZUVAROPY_HEAD_BYTES;

        if (tag == ZUVAROPY_TAG_END) {
            if (value_length != ZUVAROPY_END_VALUE_BYTES)
                return refusal(ZUVAROPY_QUESTION_LENGTH, row);
            if (row == 0)
                return refusal(ZUVAROPY_QUESTION_NONEMPTY, row);
            if (left != 0)
                return refusal(ZUVAROPY_QUESTION_STOP, row);
            return (uint64_t)ZUVAROPY_OUTCOME_YES << ZUVAROPY_OUTCOME_SHIFT | row;
        }
        if (tag != ZUVAROPY_TAG_ROW)
            return refusal(ZUVAROPY_QUESTION_TAG, row);
        if (value_length != ZUVAROPY_ROW_VALUE_BYTES)
            return refusal(ZUVAROPY_QUESTION_LENGTH, row);
        if (row == ZUVAROPY_MAX_ROWS)
            return refusal(ZUVAROPY_QUESTION_ROWS, row);
        if (left < ZUVAROPY_ROW_VALUE_BYTES)
            return refusal(ZUVAROPY_QUESTION_VALUE, row);

        parent = number(at + ZUVAROPY_PARENT_AT);
        kind = at[ZUVAROPY_KIND_AT];
        role = at[ZUVAROPY_ROLE_AT];
        if (row == 0) {
            if (kind != ZUVAROPY_KIND_ROOT)
                return refusal(ZUVAROPY_QUESTION_KIND, row);
            if (role != 0)
                return refusal(ZUVAROPY_QUESTION_ROLE, row);
            if (parent != 0)
                return refusal(ZUVAROPY_QUESTION_PARENT, row);
            depth[0] = 0;
        } else {
            if (kind != ZUVAROPY_KIND_EXISTS && kind != ZUVAROPY_KIND_FORALL)
                return refusal(ZUVAROPY_QUESTION_KIND, row);
            if (role >= ZUVAROPY_ROLES)
                return refusal(ZUVAROPY_QUESTION_ROLE, row);
            if (parent >= row)
                return refusal(ZUVAROPY_QUESTION_PARENT, row);
            if (depth[parent] >= ZUVAROPY_MAX_DEPTH)
                return refusal(ZUVAROPY_QUESTION_DEPTH, row);
            depth[row] = (uint8_t)(depth[parent] + 1);
        }
        if (at[ZUVAROPY_IMPOSSIBLE_AT] > 1)
            return refusal(ZUVAROPY_QUESTION_IMPOSSIBLE, row);

        at += ZUVAROPY_ROW_VALUE_BYTES;
        left -= ZUVAROPY_ROW_VALUE_BYTES;
    }
}

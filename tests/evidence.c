#include "evidence.h"

#include <assert.h>

void evidence_clear(struct evidence *e)
{
    e->length = 0;
}

void evidence_byte(struct evidence *e, unsigned int byte)
{
    assert(e->length < sizeof e->bytes);
    e->bytes[e->length++] = (uint8_t)byte;
}

static void evidence_number(struct evidence *e, unsigned int number)
{
    evidence_byte(e, number >> 8);
    evidence_byte(e, number & 0xFF);
}

void evidence_head(struct evidence *e, unsigned int tag, unsigned int length)
{
    evidence_byte(e, tag);
    evidence_number(e, length);
}

void evidence_end(struct evidence *e)
{
    evidence_head(e, ZUVAROPY_TAG_END, ZUVAROPY_END_VALUE_BYTES);
}

void evidence_individual(struct evidence *e, unsigned int parent, unsigned int role, uint64_t names)
{
    unsigned int i;

    evidence_head(e, ZUVAROPY_TAG_INDIVIDUAL, ZUVAROPY_INDIVIDUAL_VALUE_BYTES);
    evidence_number(e, parent);
    evidence_byte(e, role);
    for (i = ZUVAROPY_NAME_SET_BYTES; i-- > 0;)
        evidence_byte(e, names >> 8 * i & 0xFF);
}

void evidence_map(struct evidence *e, const unsigned int *images, size_t rows)
{
    evidence_clear(e);
    evidence_head(e, ZUVAROPY_TAG_MAP, (unsigned int)rows * ZUVAROPY_IMAGE_BYTES);
    while (rows-- > 0)
        evidence_number(e, *images++);
    evidence_end(e);
}

uint8_t *evidence_image(struct evidence *e, unsigned int row)
{
    return e->bytes + ZUVAROPY_HEAD_BYTES + (size_t)row * ZUVAROPY_IMAGE_BYTES;
}

uint8_t *evidence_field(struct evidence *e, unsigned int individual)
{
    return e->bytes + (size_t)individual * ZUVAROPY_INDIVIDUAL_BYTES;
}

uint8_t *evidence_value(struct evidence *e, unsigned int individual)
{
    return evidence_field(e, individual) + ZUVAROPY_HEAD_BYTES;
}

void evidence_put(uint8_t *two_bytes, unsigned int number)
{
    two_bytes[0] = (uint8_t)(number >> 8);
    two_bytes[1] = (uint8_t)number;
}

#include "corpus.h"

#include "random.h"

#include <stdlib.h>
#include <string.h>

#define CHANGED_AT_ONCE 32 /* bytes, at most */

void corpus_add(struct corpus *corpus, const uint8_t *bytes, size_t length)
{
    struct fuzz_input *input = &corpus->inputs[corpus->count];

    if (corpus->count == CORPUS_ROOM)
        return;
    input->bytes = malloc(length + 1);
    if (input->bytes == NULL)
        abort();
    input->length = length;
    memcpy(input->bytes, bytes, length);
    corpus->count++;
}

static const struct fuzz_input *any_input(const struct corpus *corpus)
{
    return &corpus->inputs[random_below((unsigned int)corpus->count)];
}

/* A part of one input put into another, over what is there or between. */
static size_t copy_part(uint8_t *bytes, size_t length, size_t at, const struct fuzz_input *from, int over)
{
    const size_t begin = from->length > 0 ? random_below((unsigned int)from->length) : 0;
    size_t count = from->length - begin;

    count = count < CHANGED_AT_ONCE || random_below(4) == 0 ? count : 1 + random_below(CHANGED_AT_ONCE);
    if (over && count > length - at)
        count = length - at;
    if (!over && length + count > CORPUS_LENGTH)
        return length;
    if (!over) {
        memmove(bytes + at + count, bytes + at, length - at);
        length += count;
    }
    memcpy(bytes + at, from->bytes + begin, count);
    return length;
}

static size_t remove_part(uint8_t *bytes, size_t length, size_t at)
{
    size_t count = 1 + random_below(CHANGED_AT_ONCE);

    count = count < length - at ? count : length - at;
    memmove(bytes + at, bytes + at + count, length - at - count);
    return length - count;
}

static size_t change(const struct corpus *corpus, uint8_t *bytes, size_t length)
{
    const unsigned int what = random_below(10);
    const size_t at = length > 0 ? random_below((unsigned int)length) : 0;

    if (what < 2 || length == 0)
        return copy_part(bytes, length, at, any_input(corpus), 0);
    switch (what) {
    case 2:
        return copy_part(bytes, length, at, any_input(corpus), 1);
    case 3:
        return remove_part(bytes, length, at);
    case 4:
    case 5:
        bytes[at] ^= (uint8_t)(1 << random_below(8));
        break;
    case 6:
        bytes[at] = (uint8_t)(bytes[at] + random_below(5) - 2);
        break;
    default:
        bytes[at] = (uint8_t)random_next();
    }
    return length;
}

size_t corpus_mutate(const struct corpus *corpus, uint8_t *bytes)
{
    const struct fuzz_input *from = any_input(corpus);
    unsigned int changes = 1 + random_below(6);
    size_t length = from->length;

    memcpy(bytes, from->bytes, length);
    for (; changes > 0; changes--)
        length = change(corpus, bytes, length);
    return length;
}

#include "normalize.h"

#include "area.h"
#include "calls.h"
#include "check.h"
#include "normal_reference.h"
#include "random.h"

#include <assert.h>
#include <string.h>

#define MARGIN 64

const uint8_t normalize_fills[3] = {0x00, 0xA5, 0xFF};

static uint8_t area[MARGIN + NORMALIZE_ROOM + MARGIN];
static uint8_t *const lent = area + MARGIN;

void normalize_check(const struct picture *p, size_t room, unsigned int fill, uint64_t wanted, const uint8_t *table,
                     unsigned long at)
{
    static uint8_t before[PICTURE_ROOM];
    const uint32_t length = zuvaropy_outcome(wanted) == ZUVAROPY_OUTCOME_REFUSAL ? 0 : zuvaropy_value(wanted);

    assert(room <= NORMALIZE_ROOM);
    memset(area, (int)fill, sizeof area);
    memcpy(before, p->bytes, sizeof before);
    CHECK_WORD(call_normalize(p->bytes, p->length, lent, room), wanted, at);
    CHECK(memcmp(before, p->bytes, sizeof before) == 0);
    CHECK(area_is_filled(area, MARGIN, fill));
    CHECK(area_is_filled(lent + length, sizeof area - MARGIN - length, fill));
    if (length > 0) {
        CHECK(memcmp(lent, table, length) == 0);
        CHECK_WORD(call_validate(lent, length), word_rows((length - 3) / 24), at);
    }
}

void normalize_check_fills(const struct picture *p, uint64_t wanted, const uint8_t *table, unsigned long at)
{
    unsigned int i;

    for (i = 0; i < sizeof normalize_fills; i++)
        normalize_check(p, ZUVAROPY_MAX_PICTURE_BYTES, normalize_fills[i], wanted, table, at);
}

uint64_t normalize_any(const struct picture *p, unsigned long at)
{
    static struct normal_reference wanted;

    normal_reference_under(&wanted, p->bytes, p->length);
    normalize_check(p, ZUVAROPY_MAX_PICTURE_BYTES, random_below(256), wanted.word, wanted.bytes, at);
    return wanted.word;
}

void normalize_check_half(const uint8_t *half, const struct picture *p)
{
    uint8_t wanted[ZUVAROPY_MAX_PICTURE_BYTES] = {0};

    CHECK(zuvaropy_outcome(call_normalize(p->bytes, p->length, wanted, sizeof wanted)) == ZUVAROPY_OUTCOME_YES);
    CHECK(memcmp(half, wanted, sizeof wanted) == 0);
}

#include "area.h"

#include "random.h"

#include <assert.h>
#include <string.h>

static size_t area_size(const struct area *a)
{
    return AREA_MARGIN + a->room + AREA_MARGIN;
}

void area_fill(struct area *a, size_t room, unsigned int fill)
{
    assert(room <= AREA_ROOM);
    a->room = room;
    memset(a->bytes, (int)fill, area_size(a));
    memset(a->wanted, (int)fill, area_size(a));
}

void area_fill_any(struct area *a, size_t room)
{
    uint64_t number;
    size_t i;

    assert(room <= AREA_ROOM);
    a->room = room;
    if (random_below(4) != 0)
        for (i = 0; i + sizeof number <= area_size(a); i += sizeof number / 2) {
            number = random_next();
            memcpy(a->bytes + i, &number, sizeof number);
        }
    memcpy(a->wanted, a->bytes, area_size(a));
}

uint8_t *area_lent(struct area *a)
{
    return a->bytes + AREA_MARGIN;
}

uint8_t *area_wanted(struct area *a)
{
    return a->wanted + AREA_MARGIN;
}

int area_is_as_wanted(const struct area *a)
{
    return memcmp(a->bytes, a->wanted, area_size(a)) == 0;
}

int area_is_filled(const uint8_t *bytes, size_t length, unsigned int fill)
{
    while (length > 0 && bytes[length - 1] == fill)
        length--;
    return length == 0;
}

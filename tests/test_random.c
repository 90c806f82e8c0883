/*
 * The library and the reference reader agree on pictures made and damaged at
 * random. The seed is fixed: every run tests the same pictures.
 */

#include "check.h"
#include "picture.h"
#include "random.h"
#include "reference.h"

#define PICTURES 300000

static struct picture p;

/* Mostly short, at times longer than allowed. */
static unsigned int random_rows(void)
{
    switch (random_below(16)) {
    case 0:
        return 1 + random_below(ZUVAROPY_MAX_ROWS);
    case 1:
        return ZUVAROPY_MAX_ROWS - 4 + random_below(8);
    case 2:
    case 3:
    case 4:
        return 1 + random_below(40);
    default:
        return 1 + random_below(6);
    }
}

/* Well formed, but for too many rows and, one time in eight, too deep. */
static void make_random(void)
{
    static unsigned int depth[PICTURE_ROOM / ZUVAROPY_ROW_BYTES];
    const unsigned int rows = random_rows();
    const int any_depth = random_below(8) == 0;
    unsigned int row, parent, i;
    uint8_t *value;

    picture_clear(&p);
    for (row = 0; row < rows; row++) {
        if (row == 0) {
            parent = 0;
            depth[row] = 0;
            picture_row(&p, 0, ZUVAROPY_KIND_ROOT, 0);
        } else {
            parent = random_below(2) ? row - 1 : random_below(row);
            if (!any_depth && depth[parent] == ZUVAROPY_MAX_DEPTH)
                parent = 0;
            depth[row] = depth[parent] + 1;
            picture_row(&p, parent, 1 + random_below(2), random_below(ZUVAROPY_ROLES));
        }
        value = picture_value(&p, row);
        value[ZUVAROPY_IMPOSSIBLE_AT] = (uint8_t)random_below(2);
        for (i = ZUVAROPY_WANTED_AT; i < ZUVAROPY_ROW_VALUE_BYTES; i++)
            value[i] = (uint8_t)random_next();
    }
    picture_end(&p);
}

int main(void)
{
    unsigned long met[ZUVAROPY_QUESTION_IMPOSSIBLE + 1] = {0};
    unsigned long i;
    unsigned int damages, question;

    for (i = 0; i < PICTURES; i++) {
        struct reference wanted;

        make_random();
        for (damages = random_below(4); damages > 0 && p.length > 0; damages--)
            random_damage(&p);
        wanted = reference_read(p.bytes, p.length);
        met[wanted.question]++;
        CHECK_WORD(picture_validate(&p), reference_word(&wanted), i);
    }

    /* The pictures reach every answer, and often. */
    CHECK(met[0] > PICTURES / 100);
    for (question = ZUVAROPY_QUESTION_HEAD; question <= ZUVAROPY_QUESTION_IMPOSSIBLE; question++)
        CHECK(met[question] > PICTURES / 1000);
    return check_summary("random");
}

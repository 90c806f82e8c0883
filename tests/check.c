#include "check.h"

#include <inttypes.h>
#include <stdio.h>

/* One fault may fail many thousand checks; the first few say enough. */
#define SHOWN 10

static unsigned long passed;
static unsigned long failed;

/* Counts a check; true if it failed and should be described. */
static int count(int ok)
{
    if (ok) {
        passed++;
        return 0;
    }
    failed++;
    return failed <= SHOWN;
}

void check_true(int ok, const char *file, int line, const char *what)
{
    if (count(ok))
        printf("%s:%d: failed: %s\n", file, line, what);
}

void check_word(uint64_t got, uint64_t wanted, const char *file, int line, unsigned long at)
{
    if (count(got == wanted))
        printf("%s:%d: at %lu: got word %016" PRIx64 ", wanted %016" PRIx64 "\n", file, line, at, got, wanted);
}

unsigned long check_failed(void)
{
    return failed;
}

int check_summary(const char *name)
{
    printf("%s: %lu passed, %lu failed\n", name, passed, failed);
    return failed != 0;
}

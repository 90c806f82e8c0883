#define _DEFAULT_SOURCE /* MAP_ANONYMOUS */

#include "pages.h"

#include <stdio.h>
#include <stdlib.h>
#include <string.h>
#include <sys/mman.h>
#include <unistd.h>

static void must(int ok, const char *what)
{
    if (!ok) {
        perror(what);
        exit(EXIT_FAILURE);
    }
}

void pages_map(struct pages *pages, size_t room)
{
    const size_t page = (size_t)sysconf(_SC_PAGESIZE);
    uint8_t *all;

    pages->length = (room + page - 1) / page * page;
    all = mmap(NULL, pages->length + 2 * page, PROT_NONE, MAP_PRIVATE | MAP_ANONYMOUS, -1, 0);
    must(all != MAP_FAILED, "mmap");
    pages->first = all + page;
}

void pages_allow_writing(const struct pages *pages)
{
    must(mprotect(pages->first, pages->length, PROT_READ | PROT_WRITE) == 0, "mprotect");
}

void pages_forbid_writing(const struct pages *pages)
{
    must(mprotect(pages->first, pages->length, PROT_READ) == 0, "mprotect");
}

uint8_t *pages_last(const struct pages *pages, size_t length)
{
    return pages->first + pages->length - length;
}

uint8_t *pages_place(const struct pages *pages, const uint8_t *bytes, size_t length, int last)
{
    uint8_t *at = last ? pages_last(pages, length) : pages->first;

    pages_allow_writing(pages);
    if (bytes != NULL)
        memcpy(at, bytes, length);
    else
        memset(at, PAGES_FILL, length);
    return at;
}

#include "lent.h"

#include "pages.h"

#include <assert.h>
#include <stdlib.h>
#include <string.h>

#define MARGIN 64

static struct pages pages[LENT_FILES];
static unsigned int files;
static bool files_in_pages;

void lent_begin(bool in_pages)
{
    files = 0;
    files_in_pages = in_pages;
}

static uint8_t *new_memory(size_t length)
{
    uint8_t *memory = malloc(length > 0 ? length : 1);

    if (memory == NULL)
        abort();
    return memory;
}

static size_t memory_length(const struct lent *lent)
{
    return lent->margin + lent->length + lent->margin;
}

static void lent_make(struct lent *lent, size_t length, size_t margin)
{
    lent->length = length;
    lent->margin = margin;
    lent->in_pages = false;
    lent->memory = new_memory(memory_length(lent));
    lent->before = new_memory(memory_length(lent));
    lent->bytes = lent->memory + margin;
}

/* Puts a file where it ends with the last page that may be read. */
static void lent_move(struct lent *lent)
{
    struct pages *own = &pages[files];

    assert(files < LENT_FILES);
    files++;
    if (own->first == NULL)
        pages_map(own, BOOK_ROOM);
    free(lent->memory);
    lent->in_pages = true;
    lent->memory = lent->bytes = pages_place(own, lent->before, lent->length, 1);
    pages_forbid_writing(own);
}

void lent_file(struct lent *lent, const uint8_t *bytes, size_t length)
{
    lent_make(lent, length, 0);
    memcpy(lent->memory, bytes, length);
    memcpy(lent->before, bytes, length);
    if (files_in_pages)
        lent_move(lent);
    else if (length == 0)
        lent->bytes = NULL;
}

/* Half of the choices are the exact length; the last ones are too short. */
static size_t chosen_length(unsigned int choice, size_t needed)
{
    switch (choice) {
    case LENT_SHORT:
        return needed - 1;
    case LENT_SHORT + 1:
        return needed / 2;
    case LENT_SHORT + 2:
        return 1;
    case LENT_SHORT + 3:
        return 0;
    default:
        return choice >= 0xFE ? needed - choice : choice >= 0x80 ? needed + choice % 0x80 : needed;
    }
}

void lent_writable(struct lent *lent, struct feed *feed, size_t needed)
{
    const unsigned int length = feed_byte(feed), fill = feed_byte(feed);
    size_t i;

    lent_make(lent, chosen_length(length, needed), fill & 1 ? MARGIN : 0);
    for (i = 0; i < memory_length(lent); i++)
        lent->memory[i] = (uint8_t)(fill & 2 ? fill + i * 37 : fill);
    memcpy(lent->before, lent->memory, memory_length(lent));
}

bool lent_is_kept(const struct lent *lent, size_t written)
{
    const size_t after = lent->margin + written;

    return memcmp(lent->memory, lent->before, lent->margin) == 0 &&
           memcmp(lent->memory + after, lent->before + after, memory_length(lent) - after) == 0;
}

void lent_return(struct lent *lent)
{
    if (!lent->in_pages)
        free(lent->memory);
    free(lent->before);
}

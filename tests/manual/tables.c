/* Prints the tables of zuvaropy(5) as the header has them: a line for each part, with its section, name, offset, bytes
 * and, where it is always the same, its number; and a line for each tag, with its number, its name and its length. */
#include <stdio.h>

#include "zuvaropy.h"

static void part(const char *section, const char *name, int offset, int bytes)
{
    printf("%s %s %d %d -\n", section, name, offset, bytes);
}

static void tag_part(const char *section, int tag)
{
    printf("%s tag 0 %d 0x%02X\n", section, ZUVAROPY_TAG_BYTES, (unsigned int)tag);
}

static void length_part(const char *section, int length)
{
    printf("%s length %d %d %d\n", section, ZUVAROPY_TAG_BYTES, ZUVAROPY_LENGTH_BYTES, length);
}

/* The last part of a field, whose length is what the field says. */
static void rest(const char *section, const char *name)
{
    part(section, "length", ZUVAROPY_TAG_BYTES, ZUVAROPY_LENGTH_BYTES);
    printf("%s %s %d length -\n", section, name, ZUVAROPY_HEAD_BYTES);
}

static void tags(void)
{
    printf("0x%02X ZUVAROPY_TAG_ROW %d\n", ZUVAROPY_TAG_ROW, ZUVAROPY_ROW_VALUE_BYTES);
    printf("0x%02X ZUVAROPY_TAG_END %d\n", ZUVAROPY_TAG_END, ZUVAROPY_END_VALUE_BYTES);
    printf("0x%02X ZUVAROPY_TAG_MAP %d a row\n", ZUVAROPY_TAG_MAP, ZUVAROPY_IMAGE_BYTES);
    printf("0x%02X ZUVAROPY_TAG_INDIVIDUAL %d\n", ZUVAROPY_TAG_INDIVIDUAL, ZUVAROPY_INDIVIDUAL_VALUE_BYTES);
    printf("0x%02X ZUVAROPY_TAG_CARD any\n", ZUVAROPY_TAG_CARD);
    printf("0x%02X ZUVAROPY_TAG_DEFINITION 1 or more\n", ZUVAROPY_TAG_DEFINITION);
}

static void row(const char *section)
{
    tag_part(section, ZUVAROPY_TAG_ROW);
    length_part(section, ZUVAROPY_ROW_VALUE_BYTES);
    part(section, "parent", ZUVAROPY_HEAD_BYTES + ZUVAROPY_PARENT_AT, ZUVAROPY_PARENT_BYTES);
    part(section, "kind", ZUVAROPY_HEAD_BYTES + ZUVAROPY_KIND_AT, ZUVAROPY_KIND_BYTES);
    part(section, "role", ZUVAROPY_HEAD_BYTES + ZUVAROPY_ROLE_AT, ZUVAROPY_ROLE_BYTES);
    part(section, "impossible", ZUVAROPY_HEAD_BYTES + ZUVAROPY_IMPOSSIBLE_AT, ZUVAROPY_IMPOSSIBLE_BYTES);
    part(section, "wanted", ZUVAROPY_HEAD_BYTES + ZUVAROPY_WANTED_AT, ZUVAROPY_NAME_SET_BYTES);
    part(section, "excluded", ZUVAROPY_HEAD_BYTES + ZUVAROPY_EXCLUDED_AT, ZUVAROPY_NAME_SET_BYTES);
}

static void map(const char *section)
{
    tag_part(section, ZUVAROPY_TAG_MAP);
    part(section, "length", ZUVAROPY_TAG_BYTES, ZUVAROPY_LENGTH_BYTES);
    part(section, "image", ZUVAROPY_HEAD_BYTES, ZUVAROPY_IMAGE_BYTES);
    part(section, "image", ZUVAROPY_HEAD_BYTES + ZUVAROPY_IMAGE_BYTES, ZUVAROPY_IMAGE_BYTES);
}

static void individual(const char *section)
{
    tag_part(section, ZUVAROPY_TAG_INDIVIDUAL);
    length_part(section, ZUVAROPY_INDIVIDUAL_VALUE_BYTES);
    part(section, "parent", ZUVAROPY_HEAD_BYTES + ZUVAROPY_INDIVIDUAL_PARENT_AT, ZUVAROPY_PARENT_BYTES);
    part(section, "role", ZUVAROPY_HEAD_BYTES + ZUVAROPY_INDIVIDUAL_ROLE_AT, ZUVAROPY_ROLE_BYTES);
    part(section, "names", ZUVAROPY_HEAD_BYTES + ZUVAROPY_INDIVIDUAL_NAMES_AT, ZUVAROPY_NAME_SET_BYTES);
}

static void definition(const char *section)
{
    tag_part(section, ZUVAROPY_TAG_DEFINITION);
    part(section, "length", ZUVAROPY_TAG_BYTES, ZUVAROPY_LENGTH_BYTES);
    part(section, "name", ZUVAROPY_HEAD_BYTES + ZUVAROPY_DEFINED_AT, ZUVAROPY_DEFINED_BYTES);
    printf("%s picture %d rest -\n", section, ZUVAROPY_HEAD_BYTES + ZUVAROPY_DEFINITION_PICTURE_AT);
}

int main(void)
{
    part("Fields", "tag", 0, ZUVAROPY_TAG_BYTES);
    rest("Fields", "value");
    tags();
    row("Pictures");
    map("Maps");
    individual("Refutations");
    tag_part("Books", ZUVAROPY_TAG_CARD);
    rest("Books", "picture");
    definition("Definitions books");
    return 0;
}

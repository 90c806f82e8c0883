/*
 * Evidence for the tests: maps and refutations, built field by field. The three
 * inputs of the call that checks them.
 */

#ifndef EVIDENCE_H
#define EVIDENCE_H

#include "picture.h"

/* Room for a few individuals more than a refutation may have. */
#define EVIDENCE_ROOM ZUVAROPY_REFUTATION_BYTES(ZUVAROPY_MAX_INDIVIDUALS + 16)

struct evidence {
    size_t length;
    uint8_t bytes[EVIDENCE_ROOM];
};

struct inputs {
    struct picture first, second;
    struct evidence evidence;
};

void evidence_clear(struct evidence *e);
void evidence_byte(struct evidence *e, unsigned int byte);
void evidence_head(struct evidence *e, unsigned int tag, unsigned int length);
void evidence_end(struct evidence *e);

/* An individual's field; the end field is put by itself. */
void evidence_individual(struct evidence *e, unsigned int parent, unsigned int role, uint64_t names);

/* A whole map. */
void evidence_map(struct evidence *e, const unsigned int *images, size_t rows);

/* A list of images and their number, for evidence_map. */
#define IMAGES(...)                                                                                                    \
    (const unsigned int[]){__VA_ARGS__}, sizeof((const unsigned int[]){__VA_ARGS__}) / sizeof(unsigned int)

/* Where the image of a row stands in a map, and an individual's field and its
 * value in a refutation. */
uint8_t *evidence_image(struct evidence *e, unsigned int row);
uint8_t *evidence_field(struct evidence *e, unsigned int individual);
uint8_t *evidence_value(struct evidence *e, unsigned int individual);

/* Changes an image, or an individual's parent. */
void evidence_put(uint8_t *two_bytes, unsigned int number);

#endif

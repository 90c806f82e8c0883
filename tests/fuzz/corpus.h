/*
 * Fuzz inputs that are kept, and new ones made from them. The seeds are made
 * from files as they are, from choices of which something is known, and at
 * random.
 */

#ifndef CORPUS_H
#define CORPUS_H

#include <stddef.h>
#include <stdint.h>

#define CORPUS_ROOM 8192    /* inputs kept, at most */
#define CORPUS_LENGTH 16384 /* bytes of an input, at most */

struct fuzz_input {
    size_t length;
    uint8_t *bytes;
};

struct corpus {
    size_t count;
    struct fuzz_input inputs[CORPUS_ROOM];
};

/* Keeps a copy, if there is room. */
void corpus_add(struct corpus *corpus, const uint8_t *bytes, size_t length);

/* All seeds. The files are pictures, evidence, books and definitions, told apart
 * by their suffixes; each set of them that the call takes is a seed, but with one
 * of the definitions or none. */
void corpus_seed(struct corpus *corpus, char *const *files, int count);

/* A new input: one that is kept with a few changes. Its length; the bytes have
 * room for CORPUS_LENGTH. */
size_t corpus_mutate(const struct corpus *corpus, uint8_t *bytes);

#endif

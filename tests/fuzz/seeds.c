#include "corpus.h"

#include "feed.h"
#include "fuzz.h"
#include "lcs.h"
#include "most_specific.h"
#include "random.h"
#include "under.h"
#include "verify.h"

#include <stdio.h>
#include <stdlib.h>
#include <string.h>

#define AT_RANDOM 150 /* seeds */
#define SHAPES 8      /* of FEED_SHAPE */
#define BOOK_CASE_ROWS 8

static struct corpus *made;
static uint8_t seed[CORPUS_LENGTH];
static size_t length;

static void put(unsigned int byte)
{
    if (length < sizeof seed)
        seed[length++] = (uint8_t)byte;
}

/* Begins a seed: both buffers just long enough, each with a fill of its own; the files are in pages and on the heap by
 * turns. */
static void begin(void)
{
    length = 0;
    put(LENT_EXACT);
    put(0xA5);
    put(LENT_EXACT);
    put(made->count % 2 ? 0x5A : 0x5A | FUZZ_ON_THE_HEAP);
}

static void end(void)
{
    corpus_add(made, seed, length);
}

/* A file as it is. */
static void put_raw(const uint8_t *bytes, size_t count)
{
    put(FEED_RAW);
    put((unsigned int)count >> 8);
    put((unsigned int)count & 0xFF);
    for (; count > 0; count--)
        put(*bytes++);
}

/* Files */

static char *const *files;
static int file_count;

static char letter_of(const char *file)
{
    const char *suffix = strrchr(file, '.');

    if (suffix == NULL)
        return 0;
    return strcmp(suffix, ".map") == 0 || strcmp(suffix, ".ref") == 0 ? 'e' : suffix[1];
}

static void add_files(const char *inputs);

static void put_file(const char *name)
{
    static uint8_t bytes[CORPUS_LENGTH];
    FILE *file = fopen(name, "rb");

    if (file == NULL) {
        perror(name);
        exit(EXIT_FAILURE);
    }
    put_raw(bytes, fread(bytes, 1, sizeof bytes, file));
    fclose(file);
}

/* No definitions, and one of the files of them. */
static void add_definitions(const char *inputs)
{
    static int turn;
    const size_t before = length;
    int i;

    put(FEED_NONE);
    add_files(inputs + 1);
    length = before;
    for (i = 0; i < file_count; i++)
        if (letter_of(files[(turn + i) % file_count]) == 'd')
            break;
    if (i == file_count)
        return;
    turn = (turn + i) % file_count;
    put_file(files[turn++]);
    seed[before] = FEED_RAW_DEFINITIONS;
    add_files(inputs + 1);
    length = before;
}

/* Each set of files for the inputs that are left, but of definitions only one at a time. */
static void add_files(const char *inputs)
{
    const size_t before = length;
    int i;

    if (*inputs == 0) {
        end();
        return;
    }
    if (*inputs == 'd') {
        add_definitions(inputs);
        return;
    }
    for (i = 0; i < file_count; i++)
        if (letter_of(files[i]) == *inputs) {
            put_file(files[i]);
            add_files(inputs + 1);
            length = before;
        }
}

/* Answers: inputs for each word that the call can give. */

static void put_picture(const struct picture *p)
{
    put_raw(p->bytes, p->length);
}

static void put_definitions(const struct book *definitions)
{
    const size_t before = length;

    put_raw(definitions->bytes, definitions->length);
    seed[before] = FEED_RAW_DEFINITIONS;
}

static void add_checked(unsigned int n)
{
    static struct inputs in;

    verify_make(&in, word_number(n));
    put_picture(&in.first);
    put_picture(&in.second);
    put(FEED_NONE);
    put_raw(in.evidence.bytes, in.evidence.length);
}

static void add_pair(unsigned int n)
{
    static struct pair pair;

    lcs_make(&pair, n);
    put_picture(&pair.first);
    put_picture(&pair.second);
}

static void add_lookup(unsigned int n)
{
    static struct lookup l;

    lookup_make(&l, n);
    put_picture(&l.case_picture);
    put_raw(l.book.bytes, l.book.length);
}

static void add_single(unsigned int n)
{
    static struct picture p;

    picture_refused(&p, n == 0 ? 0 : n + 1);
    put_picture(&p);
}

/* What is refused because of definitions. */
static void add_under(unsigned int n)
{
    static struct under u;
    const char *input;

    under_make(&u, n);
    for (input = fuzz_target.inputs; *input != 0; input++)
        if (*input == 'p')
            put_picture(input == fuzz_target.inputs ? &u.first : &u.second);
        else if (*input == 'e')
            put_raw(u.evidence.bytes, u.evidence.length);
        else if (*input == 'b')
            put_raw(u.book.bytes, u.book.length);
        else
            put_definitions(&u.definitions);
}

static void add_answers(void)
{
    static const struct {
        const char *inputs;
        void (*add)(unsigned int n);
        unsigned int words;
    } sorts[] = {
        {"p", add_single, ZUVAROPY_QUESTION_MERGED},
        {"pd", add_single, ZUVAROPY_QUESTION_MERGED},
        {"pd", add_under, UNDER_WORDS},
        {"ppd", add_pair, LCS_WORDS},
        {"ppd", add_under, UNDER_WORDS},
        {"ppde", add_checked, WORDS},
        {"ppde", add_under, UNDER_WORDS},
        {"pbd", add_lookup, LOOKUP_WORDS},
        {"pbd", add_under, UNDER_WORDS},
    };
    unsigned int i, n, buffer;

    for (i = 0; i < sizeof sorts / sizeof sorts[0]; i++)
        for (n = 0; strcmp(sorts[i].inputs, fuzz_target.inputs) == 0 && n < sorts[i].words; n++) {
            begin();
            sorts[i].add(n);
            end();
            for (buffer = 0; n == 0 && buffer < FUZZ_BUFFER_CHOICES; buffer += 2) {
                seed[buffer] = LENT_SHORT;
                end();
            }
        }
}

/* Choices */

static void put_shape(unsigned int shape, unsigned int size)
{
    put(FEED_SHAPE);
    put(shape);
    put(size);
    put(size);
}

/* Input n, or the card in it, has this shape; the others are small. */
static void add_shape(unsigned int n, unsigned int shape, unsigned int size)
{
    unsigned int i;

    begin();
    for (i = 0; fuzz_target.inputs[i] != 0; i++) {
        if (fuzz_target.inputs[i] == 'e' || fuzz_target.inputs[i] == 'd') {
            put(fuzz_target.inputs[i] == 'e' ? FEED_WRITTEN : FEED_NONE);
            continue;
        }
        if (fuzz_target.inputs[i] == 'b') {
            put(FEED_ROWS);
            put(1);
        }
        put_shape(i == n ? shape : SHAPES - 2, i == n ? size : 2);
    }
    end();
}

static void add_shapes(void)
{
    unsigned int n, shape, size;

    for (n = 0; fuzz_target.inputs[n] != 0; n++) {
        for (size = 0; size < ZUVAROPY_QUESTION_MERGED - 1; size++)
            add_shape(n, FEED_REFUSED, size);
        for (shape = 1; shape < SHAPES; shape++)
            for (size = 0; size < 256; size += 15)
                add_shape(n, shape, size);
    }
}

/* All inputs have one shape. */
static void add_alike(void)
{
    unsigned int i, shape, size;

    for (shape = 1; shape < SHAPES; shape++)
        for (size = 0; size < 256; size += 16) {
            begin();
            for (i = 0; fuzz_target.inputs[i] != 0; i++)
                if (fuzz_target.inputs[i] == 'd')
                    put(FEED_NONE);
                else
                    put_shape(shape, size);
            end();
        }
}

static void put_random(unsigned int count)
{
    for (; count > 0; count--)
        put((unsigned int)random_next() & 0xFF);
}

static void add_random(void)
{
    unsigned int i;

    for (i = 0; i < AT_RANDOM; i++) {
        begin();
        put_random(random_below(i < AT_RANDOM / 2 ? 40 : 400));
        end();
    }
}

/* Books of each number of cards, made from the case or each from the one before. */
static void add_books(void)
{
    unsigned int cards, i;

    for (cards = 0; cards <= 2 * ZUVAROPY_MAX_CARDS + 3; cards++) {
        begin();
        put(FEED_ROWS);
        put(BOOK_CASE_ROWS);
        put_random(4 * BOOK_CASE_ROWS);
        put(FEED_ROWS + (cards & 1 ? FEED_FORMS : 0));
        put(cards / 2);
        for (i = 0; i < cards / 2; i++) {
            put(FEED_LIKE);
            put(1);
            put_random(3);
        }
        end();
    }
}

/* So many definitions from choices, each of which wants the next: names as set_of in feed_rows.c makes them. */
static void put_defined(unsigned int count)
{
    unsigned int i;

    put(FEED_ROWS);
    put(count);
    for (i = 0; i < count; i++) {
        put(i);
        put(FEED_ROWS);
        put(2);
        put(0x80 | (i + 1) % ZUVAROPY_NAMES);
        put(0);
        put_random(6);
    }
}

/* A picture whose root wants one of them; or such a card. */
static void put_mentioning(char input, unsigned int count)
{
    if (input == 'b') {
        put(FEED_ROWS);
        put(1);
    }
    put(FEED_ROWS);
    put(3);
    put(0x80 | random_below(count));
    put(0);
    put_random(6);
}

static void add_defined(void)
{
    const char *input;
    unsigned int count;

    for (count = 1; count <= ZUVAROPY_MAX_DEFINITIONS; count += count < 6 ? 1 : 13) {
        begin();
        for (input = fuzz_target.inputs; *input != 0; input++)
            if (*input == 'e')
                put(FEED_WRITTEN);
            else if (*input == 'd')
                put_defined(count);
            else
                put_mentioning(*input, count);
        end();
    }
}

void corpus_seed(struct corpus *corpus, char *const *names, int count)
{
    made = corpus;
    files = names;
    file_count = count;
    length = 0;
    end();
    begin();
    add_files(fuzz_target.inputs);
    add_answers();
    add_shapes();
    add_alike();
    add_random();
    if (strchr(fuzz_target.inputs, 'b') != NULL)
        add_books();
    if (strchr(fuzz_target.inputs, 'd') != NULL)
        add_defined();
}

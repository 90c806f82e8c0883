/*
 * All six calls on files, with every buffer in memory of its own, from malloc and
 * of exactly the length that is named: for valgrind, which sees a byte that is
 * read or written past it. Each call is made twice. The first time the buffers
 * for writing hold nothing, so that valgrind also sees an answer or a byte that
 * depends on what was there.
 *
 *   heap_calls FILE..     sample pictures (.pic), evidence (.map, .ref), books (.book) and definitions (.defs)
 */

#include "area.h"
#include "calls.h"
#include "check.h"

#include <stdio.h>
#include <stdlib.h>
#include <string.h>

#define FILL 0xA5

struct file {
    char *name;
    uint8_t *bytes; /* NULL if there are none */
    size_t length;
};

/* The buffers of a call: those for writing, and the files it reads. */
struct call {
    size_t work_length, result_length;
    uint64_t (*make)(const struct file *const *files, uint8_t *work, size_t work_len, uint8_t *result,
                     size_t result_len);
};

static uint64_t validate(const struct file *const *files, uint8_t *work, size_t work_len, uint8_t *result,
                         size_t result_len)
{
    (void)work, (void)work_len, (void)result, (void)result_len;
    return call_validate(files[0]->bytes, files[0]->length);
}

static uint64_t normalize(const struct file *const *files, uint8_t *work, size_t work_len, uint8_t *result,
                          size_t result_len)
{
    (void)work, (void)work_len;
    return call_normalize(files[0]->bytes, files[0]->length, result, result_len);
}

static uint64_t subsumes(const struct file *const *files, uint8_t *work, size_t work_len, uint8_t *result,
                         size_t result_len)
{
    return call_subsumes(files[0]->bytes, files[0]->length, files[1]->bytes, files[1]->length, work, work_len,
                         result, result_len);
}

static uint64_t lcs(const struct file *const *files, uint8_t *work, size_t work_len, uint8_t *result, size_t result_len)
{
    return call_lcs(files[0]->bytes, files[0]->length, files[1]->bytes, files[1]->length, work, work_len, result,
                    result_len);
}

static uint64_t verify(const struct file *const *files, uint8_t *work, size_t work_len, uint8_t *result,
                       size_t result_len)
{
    (void)result, (void)result_len;
    return call_verify(files[0]->bytes, files[0]->length, files[1]->bytes, files[1]->length, files[2]->bytes,
                       files[2]->length, work, work_len);
}

static uint64_t most_specific(const struct file *const *files, uint8_t *work, size_t work_len, uint8_t *result,
                              size_t result_len)
{
    (void)result, (void)result_len;
    return call_most_specific(files[0]->bytes, files[0]->length, files[1]->bytes, files[1]->length, work, work_len);
}

static const struct call calls[] = {
    {0, 0, validate},
    {0, ZUVAROPY_MAX_PICTURE_BYTES, normalize},
    {ZUVAROPY_WORK_BYTES, ZUVAROPY_MAX_EVIDENCE_BYTES, subsumes},
    {ZUVAROPY_WORK_BYTES, ZUVAROPY_MAX_PICTURE_BYTES, lcs},
    {ZUVAROPY_WORK_BYTES, 0, verify},
    {ZUVAROPY_WORK_BYTES, 0, most_specific},
};
enum { VALIDATE, NORMALIZE, SUBSUMES, LCS, VERIFY, MOST_SPECIFIC };

static void *new_memory(size_t length)
{
    void *memory = length > 0 ? malloc(length) : NULL;

    if (length > 0 && memory == NULL)
        abort();
    return memory;
}

static uint8_t *new_filled(size_t length)
{
    uint8_t *memory = new_memory(length);

    if (length > 0)
        memset(memory, FILL, length);
    return memory;
}

/* A buffer for writing that is a byte short is refused, and not touched. */
static void check_short(const struct call *call, const struct file *const *files, size_t work_len, size_t result_len)
{
    uint8_t *work = new_filled(work_len), *result = new_filled(result_len);

    CHECK_WORD(call->make(files, work, work_len, result, result_len),
               (uint64_t)ZUVAROPY_QUESTION_BUFFER << ZUVAROPY_QUESTION_SHIFT, work_len + result_len);
    CHECK(area_is_filled(work, work_len, FILL));
    CHECK(area_is_filled(result, result_len, FILL));
    free(work);
    free(result);
}

/* How many bytes of the work space and of the result are written where this is the word. */
static size_t work_written(const struct call *call, uint64_t word)
{
    const unsigned int question = zuvaropy_question(word);

    return question == 0 || (question >= ZUVAROPY_QUESTION_COMMON && question <= ZUVAROPY_QUESTION_REFUTED)
               ? call->work_length
               : 0;
}

static size_t result_written(const struct call *call, uint64_t word)
{
    return call->result_length > 0 ? zuvaropy_value(word) : 0;
}

/* So many bytes are the same whatever was there before, and the rest is as it was. */
static void check_written(const uint8_t *bytes, const uint8_t *filled, size_t length, size_t written)
{
    CHECK(memcmp(bytes, filled, written) == 0);
    CHECK(area_is_filled(filled + written, length - written, FILL));
}

/* The call twice, and with short buffers. Gives the word, and the result for the caller to free. */
static uint64_t check_call(unsigned int number, const struct file *const *files, uint8_t **result)
{
    const struct call *call = &calls[number];
    const size_t work_len = call->work_length, result_len = call->result_length;
    uint8_t *work = new_memory(work_len), *filled_work = new_filled(work_len), *filled_result = new_filled(result_len);
    uint64_t word;

    *result = new_memory(result_len);
    word = call->make(files, work, work_len, *result, result_len);
    CHECK_WORD(call->make(files, filled_work, work_len, filled_result, result_len), word, number);
    if (work_len > 0) {
        check_written(work, filled_work, work_len, work_written(call, word));
        check_short(call, files, work_len - 1, result_len);
    }
    if (result_len > 0) {
        check_written(*result, filled_result, result_len, result_written(call, word));
        check_short(call, files, work_len, result_len - 1);
    }
    free(work);
    free(filled_work);
    free(filled_result);
    return word;
}

static void check_only(unsigned int number, const struct file *const *files)
{
    uint8_t *result;

    check_call(number, files, &result);
    free(result);
}

/* Files */

static struct file *all;
static int count;

static int has_suffix(const struct file *file, const char *suffix)
{
    const char *found = strrchr(file->name, '.');

    return found != NULL && strcmp(found, suffix) == 0;
}

static void read_file(struct file *file, char *name)
{
    static uint8_t bytes[1 << 16];
    FILE *stream = fopen(name, "rb");

    if (stream == NULL) {
        perror(name);
        exit(EXIT_FAILURE);
    }
    file->name = name;
    file->length = fread(bytes, 1, sizeof bytes, stream);
    file->bytes = new_memory(file->length);
    if (file->length > 0)
        memcpy(file->bytes, bytes, file->length);
    fclose(stream);
}

/* What was written as evidence is checked from memory of its own, too. */
static void check_evidence(const struct file *first, const struct file *second)
{
    const struct file *files[3] = {first, second, NULL};
    struct file written = {NULL, NULL, 0};
    uint8_t *result;
    int i;

    written.length = zuvaropy_value(check_call(SUBSUMES, files, &result));
    written.bytes = new_memory(written.length);
    if (written.length > 0)
        memcpy(written.bytes, result, written.length);
    files[2] = &written;
    check_only(VERIFY, files);
    for (i = 0; i < count; i++)
        if (has_suffix(&all[i], ".map") || has_suffix(&all[i], ".ref")) {
            files[2] = &all[i];
            check_only(VERIFY, files);
        }
    free(result);
    free(written.bytes);
}

static void check_picture(const struct file *picture)
{
    const struct file *files[2] = {picture, NULL};
    int i;

    check_only(VALIDATE, files);
    check_only(NORMALIZE, files);
    for (i = 0; i < count; i++) {
        files[1] = &all[i];
        if (has_suffix(&all[i], ".pic")) {
            check_only(LCS, files);
            check_evidence(picture, &all[i]);
        }
        if (has_suffix(&all[i], ".book"))
            check_only(MOST_SPECIFIC, files);
    }
}

/* The calls under definitions, with the picture as both. */
static void check_under(const struct file *picture, const struct file *definitions)
{
    const struct file *files[2] = {picture, picture};
    int i;

    calls_under(definitions->bytes, definitions->length);
    check_only(NORMALIZE, files);
    check_only(LCS, files);
    check_evidence(picture, picture);
    for (i = 0; i < count; i++)
        if (has_suffix(&all[i], ".book")) {
            files[1] = &all[i];
            check_only(MOST_SPECIFIC, files);
        }
    calls_under_none();
}

int main(int argc, char **argv)
{
    int i, j;

    count = argc - 1;
    all = new_memory((size_t)argc * sizeof *all);
    for (i = 0; i < count; i++)
        read_file(&all[i], argv[i + 1]);
    for (i = 0; i < count; i++)
        if (has_suffix(&all[i], ".pic")) {
            check_picture(&all[i]);
            for (j = 0; j < count; j++)
                if (has_suffix(&all[j], ".defs"))
                    check_under(&all[i], &all[j]);
        }
    for (i = 0; i < count; i++)
        free(all[i].bytes);
    free(all);
    return check_summary("heap_calls");
}

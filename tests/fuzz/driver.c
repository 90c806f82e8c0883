/*
 * Runs a fuzz target without libFuzzer: its seeds, and then so many inputs made
 * from them. One that shows something new is kept, and others are made from it.
 * The seed of the random numbers is fixed: every run makes the same inputs.
 *
 *   fuzz_CALL RUNS FILE..           the bounded run; the files are sample pictures, evidence, books and definitions
 *   fuzz_CALL --write FOLDER FILE.. the seeds as files, for libFuzzer
 *   fuzz_CALL --input FILE          one input, as libFuzzer or a run before has left it
 *
 * If a check fails, or the call ends by a signal, the input is left in
 * build/fuzz/fuzz_CALL.failed.
 */

#define _POSIX_C_SOURCE 200809L /* sigaction */

#include "check.h"
#include "corpus.h"
#include "fuzz.h"

#include <fcntl.h>
#include <signal.h>
#include <stdio.h>
#include <stdlib.h>
#include <string.h>
#include <unistd.h>

#define PATH_ROOM 1024

static struct corpus corpus;
static uint8_t current[CORPUS_LENGTH];
static size_t current_length;
static char failed_path[PATH_ROOM];
static size_t features;

/* The input is left, and the program ends as the signal would have ended it. */
static void leave_input(int signal_number)
{
    const int file = open(failed_path, O_WRONLY | O_CREAT | O_TRUNC, 0666);
    const size_t length = current_length;

    if (file >= 0 && write(file, current, length) == (ssize_t)length)
        close(file);
    raise(signal_number);
}

static void catch_signals(void)
{
    static const int signals[] = {SIGABRT, SIGSEGV, SIGBUS, SIGFPE, SIGILL};
    struct sigaction action;
    size_t i;

    memset(&action, 0, sizeof action);
    action.sa_handler = leave_input;
    action.sa_flags = (int)SA_RESETHAND;
    for (i = 0; i < sizeof signals / sizeof signals[0]; i++)
        sigaction(signals[i], &action, NULL);
    snprintf(failed_path, sizeof failed_path, "build/fuzz/%s.failed", fuzz_target.name);
}

/* How often, roughly: each is a feature of its own. */
static uint8_t magnitude(uint8_t count)
{
    return count == 0 ? 0 : count == 1 ? 1 : count == 2 ? 2 : count < 8 ? 4 : count < 32 ? 8 : 16;
}

/* Features of the last run that no run before had. */
static size_t new_features(void)
{
    static uint8_t seen[FUZZ_COUNTERS];
    size_t i, found = 0;

    for (i = 0; i < FUZZ_COUNTERS; i++) {
        const uint8_t met = magnitude(fuzz_counters[i]);

        found += (met & ~seen[i]) != 0;
        seen[i] |= met;
    }
    return found;
}

static size_t run_current(void)
{
    memset(fuzz_counters, 0, sizeof fuzz_counters);
    LLVMFuzzerTestOneInput(current, current_length);
    return new_features();
}

static void run_seeds(void)
{
    size_t i;

    for (i = 0; i < corpus.count; i++) {
        current_length = corpus.inputs[i].length;
        memcpy(current, corpus.inputs[i].bytes, current_length);
        features += run_current();
    }
}

static int run_bounded(unsigned long runs, char *const *files, int count)
{
    size_t seeds, found;
    unsigned long i;

    corpus_seed(&corpus, files, count);
    seeds = corpus.count;
    run_seeds();
    for (i = 0; i < runs; i++) {
        current_length = corpus_mutate(&corpus, current);
        found = run_current();
        features += found;
        if (found > 0)
            corpus_add(&corpus, current, current_length);
    }
    fuzz_check_met();
    printf("%s: %lu seeds, %lu more runs, %lu answered, %lu features\n", fuzz_target.name, (unsigned long)seeds, runs,
           fuzz_answered(), (unsigned long)features);
    return check_summary(fuzz_target.name);
}

static int write_seeds(const char *folder, char *const *files, int count)
{
    char path[PATH_ROOM];
    size_t i;

    corpus_seed(&corpus, files, count);
    for (i = 0; i < corpus.count; i++) {
        const struct fuzz_input *input = &corpus.inputs[i];
        FILE *file;

        snprintf(path, sizeof path, "%s/seed-%04lu", folder, (unsigned long)i);
        file = fopen(path, "wb");
        if (file == NULL || fwrite(input->bytes, 1, input->length, file) < input->length) {
            perror(path);
            return EXIT_FAILURE;
        }
        fclose(file);
    }
    return EXIT_SUCCESS;
}

static int run_input(const char *name)
{
    FILE *file = fopen(name, "rb");

    if (file == NULL) {
        perror(name);
        return EXIT_FAILURE;
    }
    current_length = fread(current, 1, sizeof current, file);
    fclose(file);
    run_current();
    return check_summary(fuzz_target.name);
}

int main(int argc, char **argv)
{
    if (argc == 3 && strcmp(argv[1], "--input") == 0)
        return run_input(argv[2]);
    if (argc > 2 && strcmp(argv[1], "--write") == 0)
        return write_seeds(argv[2], argv + 3, argc - 3);
    if (argc < 2) {
        fprintf(stderr, "usage: %s RUNS FILE.. | --write FOLDER FILE.. | --input FILE\n", argv[0]);
        return 2;
    }
    catch_signals();
    return run_bounded(strtoul(argv[1], NULL, 10), argv + 2, argc - 2);
}

/*
 * Counting checks. A test program makes checks and ends with
 * `return check_summary("name");`, which prints "name: P passed, F failed".
 */

#ifndef CHECK_H
#define CHECK_H

#include <stdint.h>

#define CHECK(condition) check_true((condition) != 0, __FILE__, __LINE__, #condition)

/* `at` is a number that tells the turns of a loop apart. */
#define CHECK_WORD(got, wanted, at) check_word((got), (wanted), __FILE__, __LINE__, (unsigned long)(at))

void check_true(int ok, const char *file, int line, const char *what);
void check_word(uint64_t got, uint64_t wanted, const char *file, int line, unsigned long at);

/* How many have failed so far. */
unsigned long check_failed(void);

/* Prints the summary; the program's exit status. */
int check_summary(const char *name);

#endif

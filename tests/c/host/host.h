/* What the tests of the C interface share. */
#ifndef HOST_H
#define HOST_H

#include <stddef.h>
#include <stdint.h>

/* The first failure is printed and ends the program with status 1. */
#define EXPECT(found, expected)                                                                  \
    expect(__func__, __LINE__, #found, (int64_t)(found), (int64_t)(expected))

void expect(const char *test, int line, const char *what, int64_t found, int64_t expected);

/* How many entries or bytes stand on each side of what a call may write. */
#define GUARD 64

typedef void (*test_function)(void);

/* Plays tests, and returns how many they are. */
int play(const test_function *tests, size_t count);

/* The tests of a file each, played. */
int test_runs(void);
int test_accounts(void);
int test_printouts(void);

#endif

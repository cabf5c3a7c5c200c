/* Tests of the C interface. */
#include "host.h"
#include <inttypes.h>
#include <stdio.h>
#include <stdlib.h>

void expect(const char *test, int line, const char *what, int64_t found, int64_t expected)
{
    if (found == expected)
        return;
    printf("%s, line %d: %s is %" PRId64 ", expected %" PRId64 "\n", test, line, what, found, expected);
    exit(1);
}

int play(const test_function *tests, size_t count)
{
    for (size_t test = 0; test < count; test++)
        tests[test]();
    return (int)count;
}

int main(void)
{
    int tests = test_runs() + test_accounts() + test_printouts();
    printf("C interface: %d tests passed\n", tests);
    return 0;
}

/* Plays standard input, a size byte and then a file, and prints what funding_run answers and
   leaves in its lists; with the argument `printout`, what funding_printout writes.
   tests/differential/README.md lays down the form. */
#include "funding.h"
#include <inttypes.h>
#include <stdio.h>
#include <stdlib.h>
#include <string.h>

/* What no position or cash can be. */
#define SENTINEL INT64_MIN

static int64_t positions[FUNDING_ACCOUNTS], cash[FUNDING_ACCOUNTS];

static void out_of_memory(void)
{
    fprintf(stderr, "library_runner: out of memory\n");
    exit(2);
}

/* Reads up to the end of standard input. */
static uint8_t *read_input(size_t *length)
{
    size_t capacity = 1 << 16;
    uint8_t *bytes = malloc(capacity);
    *length = 0;
    if (bytes == NULL)
        out_of_memory();
    for (;;) {
        size_t got = fread(bytes + *length, 1, capacity - *length, stdin);
        *length += got;
        if (got == 0)
            return bytes;
        if (*length == capacity) {
            capacity *= 2;
            bytes = realloc(bytes, capacity);
            if (bytes == NULL)
                out_of_memory();
        }
    }
}

static int are_untouched(void)
{
    for (int account = 0; account < FUNDING_ACCOUNTS; account++)
        if (positions[account] != SENTINEL || cash[account] != SENTINEL)
            return 0;
    return 1;
}

static void print_run(const uint8_t *input, size_t length)
{
    uint8_t size = length == 0 ? 0 : input[0];
    size_t head = length == 0 ? 0 : 1;
    for (int account = 0; account < FUNDING_ACCOUNTS; account++)
        positions[account] = cash[account] = SENTINEL;
    uint64_t accepted = funding_run(size, input + head, length - head,
                                    positions, FUNDING_ACCOUNTS, cash, FUNDING_ACCOUNTS);
    printf("accepted %" PRIu64 "\n", accepted);
    if (are_untouched()) {
        printf("untouched\n");
    } else {
        for (int account = 0; account < FUNDING_ACCOUNTS; account++)
            printf("%" PRId64 " %" PRId64 "\n", positions[account], cash[account]);
    }
}

/* Part after part. One that answers with another length than the first is told on a line that no
   printout has. */
static void print_printout(const uint8_t *input, size_t length)
{
    static uint8_t part[4000];
    size_t whole = funding_printout(input, length, 0, part, sizeof part);
    size_t from = 0, answer = whole;
    while (from < whole) {
        size_t left = whole - from;
        fwrite(part, 1, left < sizeof part ? left : sizeof part, stdout);
        from += sizeof part;
        if (from < whole)
            answer = funding_printout(input, length, from, part, sizeof part);
        if (answer != whole)
            printf("another length from byte %zu on\n", from);
    }
}

int main(int count, char **arguments)
{
    size_t length;
    uint8_t *input = read_input(&length);
    if (count == 2 && strcmp(arguments[1], "printout") == 0)
        print_printout(input, length);
    else
        print_run(input, length);
    free(input);
    return 0;
}

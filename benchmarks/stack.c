/* Prints how many bytes of its stack each call of the library writes on the given inputs, from its own frame on: stack INPUT..
   An input is a size byte and then records. The stack is of the ordinary size and filled before with bytes that are looked for
   after. */
#define _GNU_SOURCE
#include "funding.h"
#include <pthread.h>
#include <stdio.h>
#include <stdlib.h>
#include <string.h>
#include <sys/mman.h>

enum { STACK = 8 << 20, FILL = 0xa5, INPUT = 1 << 20 };

static uint8_t input[INPUT], printout[1 << 20];
static size_t length;
static int64_t positions[FUNDING_ACCOUNTS], cash[FUNDING_ACCOUNTS];
/* Where the frame of the function ends that makes the call. */
static const uint8_t *caller;

static void fail(const char *reason)
{
    fprintf(stderr, "stack: %s\n", reason);
    exit(2);
}

static void *run(void *nothing)
{
    caller = __builtin_frame_address(0);
    if (length > 0)
        funding_run(input[0], input + 1, length - 1, positions, FUNDING_ACCOUNTS, cash, FUNDING_ACCOUNTS);
    return nothing;
}

static void *print(void *nothing)
{
    caller = __builtin_frame_address(0);
    if (funding_printout(input, length, 0, printout, sizeof printout) > sizeof printout)
        fail("a printout is too long");
    return nothing;
}

static void read_input(const char *path)
{
    FILE *file = fopen(path, "rb");
    if (file == NULL)
        fail("an input can't be opened");
    length = fread(input, 1, sizeof input, file);
    if (length == sizeof input)
        fail("an input is too long");
    fclose(file);
}

/* The bytes between the caller's frame and the lowest byte that was written. */
static size_t written(uint8_t *stack, void *(*call)(void *))
{
    pthread_attr_t attributes;
    pthread_t thread;
    memset(stack, FILL, STACK);
    if (pthread_attr_init(&attributes) != 0 || pthread_attr_setstack(&attributes, stack, STACK) != 0 ||
        pthread_create(&thread, &attributes, call, NULL) != 0 || pthread_join(thread, NULL) != 0)
        fail("no thread");
    pthread_attr_destroy(&attributes);
    const uint8_t *lowest = stack;
    while (*lowest == FILL)
        lowest++;
    return (size_t)(caller - lowest);
}

static size_t larger(size_t one, size_t other)
{
    return one < other ? other : one;
}

int main(int count, char **paths)
{
    size_t most_of_run = 0, most_of_print = 0;
    uint8_t *stack = mmap(NULL, STACK, PROT_READ | PROT_WRITE, MAP_PRIVATE | MAP_ANONYMOUS, -1, 0);
    if (stack == MAP_FAILED)
        fail("out of memory");
    for (int place = 1; place < count; place++) {
        read_input(paths[place]);
        most_of_run = larger(most_of_run, written(stack, run));
        most_of_print = larger(most_of_print, written(stack, print));
    }
    printf("funding_run %zu\nfunding_printout %zu\n", most_of_run, most_of_print);
    return 0;
}

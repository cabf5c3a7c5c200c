/* Shows what funding-bench prints for a day file, without starting it: printout FILE */
#include "funding.h"
#include <stdio.h>

#define PART 4096

static uint8_t day[FUNDING_PRINTOUT_INPUT];

/* Reads what counts of a file into `day`; its length goes to `length`. 0 if it can't be read. */
static int read_day(const char *path, size_t *length)
{
    FILE *stream = fopen(path, "rb");
    int failed;
    if (stream == NULL)
        return 0;
    *length = fread(day, 1, sizeof day, stream);
    failed = ferror(stream);
    fclose(stream);
    return !failed;
}

/* The printout may be longer than the buffer, so it is taken part after part.
   0 if it can't be written. */
static int show(size_t day_length)
{
    uint8_t part[PART];
    size_t from = 0, length;
    do {
        length = funding_printout(day, day_length, from, part, PART);
        size_t filled = length - from < PART ? length - from : PART;
        if (fwrite(part, 1, filled, stdout) != filled)
            return 0;
        from += filled;
    } while (from < length);
    return fflush(stdout) == 0;
}

int main(int count, char **arguments)
{
    size_t length;
    if (count != 2) {
        fprintf(stderr, "usage: printout FILE\n");
        return 2;
    }
    if (!read_day(arguments[1], &length)) {
        fprintf(stderr, "printout: %s can't be read\n", arguments[1]);
        return 1;
    }
    if (!show(length)) {
        fprintf(stderr, "printout: standard output can't be written\n");
        return 1;
    }
    return 0;
}

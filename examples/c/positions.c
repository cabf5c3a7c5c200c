/* Plays a day file and prints the accounts with a position or cash: positions FILE */
#include "funding.h"
#include <inttypes.h>
#include <stdio.h>
#include <stdlib.h>

/* The whole file, or NULL; its length goes to `length`. */
static uint8_t *read_whole(const char *path, size_t *length)
{
    FILE *stream = fopen(path, "rb");
    uint8_t *bytes = NULL;
    long end;
    if (stream == NULL)
        return NULL;
    if (fseek(stream, 0, SEEK_END) == 0 && (end = ftell(stream)) >= 0) {
        rewind(stream);
        *length = (size_t)end;
        bytes = malloc(*length + 1);
        if (bytes != NULL && fread(bytes, 1, *length, stream) != *length) {
            free(bytes);
            bytes = NULL;
        }
    }
    fclose(stream);
    return bytes;
}

static void print_accounts(const int64_t *positions, const int64_t *cash)
{
    for (int account = 0; account < FUNDING_ACCOUNTS; account++)
        if (positions[account] != 0 || cash[account] != 0)
            printf("account %d position %" PRId64 " cash %" PRId64 "\n",
                   account, positions[account], cash[account]);
}

int main(int count, char **arguments)
{
    int64_t positions[FUNDING_ACCOUNTS], cash[FUNDING_ACCOUNTS];
    size_t length;
    if (count != 2) {
        fprintf(stderr, "usage: positions FILE\n");
        return 2;
    }
    uint8_t *day = read_whole(arguments[1], &length);
    if (day == NULL) {
        fprintf(stderr, "positions: %s can't be read\n", arguments[1]);
        return 1;
    }
    /* The first byte is the size. A refused one would leave the lists untouched. */
    if (length == 0 || (day[0] != 1 && day[0] != 10)) {
        fprintf(stderr, "positions: the size is neither 1 nor 10\n");
        free(day);
        return 1;
    }
    uint64_t accepted = funding_run(day[0], day + 1, length - 1,
                                    positions, FUNDING_ACCOUNTS, cash, FUNDING_ACCOUNTS);
    printf("accepted %" PRIu64 "\n", accepted);
    print_accounts(positions, cash);
    free(day);
    return 0;
}

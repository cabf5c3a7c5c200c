#include "lists.h"
#include "funding.h"
#include "host.h"

#define SENTINEL INT64_C(-7777777777777777777)
#define LONGEST (FUNDING_ACCOUNTS + 1)

/* Each list with guards on both sides of it. */
static int64_t positions_memory[GUARD + LONGEST + GUARD];
static int64_t cash_memory[GUARD + LONGEST + GUARD];
static int64_t *const positions = positions_memory + GUARD;
static int64_t *const cash = cash_memory + GUARD;

/* The entries of a list and its guards, from the entry `first` on, that are no sentinel. */
static int touched_from(const int64_t *memory, int first)
{
    int touched = 0;
    for (int entry = 0; entry < GUARD + LONGEST + GUARD; entry++)
        if (entry < GUARD || entry >= GUARD + first)
            touched += memory[entry] != SENTINEL;
    return touched;
}

static uint64_t run_on(uint8_t size, const struct file *file, size_t positions_len, size_t cash_len)
{
    for (int entry = 0; entry < GUARD + LONGEST + GUARD; entry++)
        positions_memory[entry] = cash_memory[entry] = SENTINEL;
    return funding_run(size, file->bytes, file->length, positions, positions_len, cash, cash_len);
}

uint64_t run(uint8_t size, const struct file *file)
{
    uint64_t accepted = run_on(size, file, FUNDING_ACCOUNTS, FUNDING_ACCOUNTS);
    EXPECT(touched_from(positions_memory, FUNDING_ACCOUNTS), 0);
    EXPECT(touched_from(cash_memory, FUNDING_ACCOUNTS), 0);
    return accepted;
}

void expect_refused(uint8_t size, const struct file *file, size_t positions_len, size_t cash_len)
{
    EXPECT(run_on(size, file, positions_len, cash_len), 0);
    EXPECT(touched_from(positions_memory, 0), 0);
    EXPECT(touched_from(cash_memory, 0), 0);
}

int accounts_shown(void)
{
    int shown = 0;
    for (int account = 0; account < FUNDING_ACCOUNTS; account++)
        shown += positions[account] != 0 || cash[account] != 0;
    return shown;
}

void expect_account(int account, int64_t position, int64_t total_cash)
{
    EXPECT(positions[account], position);
    EXPECT(cash[account], total_cash);
}

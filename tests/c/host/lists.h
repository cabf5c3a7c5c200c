/* Runs on lists with guards on both sides, and what is expected of these. */
#ifndef LISTS_H
#define LISTS_H

#include "records.h"

/* A run that fills both lists and nothing beside them: the records accepted. */
uint64_t run(uint8_t size, const struct file *file);

/* A run that leaves lists of these lengths untouched. */
void expect_refused(uint8_t size, const struct file *file, size_t positions_len, size_t cash_len);

/* An account after the last run. */
void expect_account(int account, int64_t position, int64_t total_cash);

/* The accounts whose position or cash isn't zero after the last run. */
int accounts_shown(void);

#endif

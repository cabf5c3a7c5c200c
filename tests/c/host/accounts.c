/* Tests of the accounts: the lengths of their lists, and trades by tag 10. */
#include "days.h"
#include "funding.h"
#include "host.h"
#include "lists.h"
#include <stdlib.h>

static void lists_of_other_lengths_are_refused(void)
{
    static const size_t lengths[] = {0, 255, 256, 257, 1023, 1025};
    const size_t count = sizeof lengths / sizeof lengths[0];
    struct file day = example_day();
    for (size_t first = 0; first < count; first++) {
        expect_refused(10, &day, lengths[first], FUNDING_ACCOUNTS);
        expect_refused(10, &day, FUNDING_ACCOUNTS, lengths[first]);
        for (size_t second = 0; second < count; second++)
            expect_refused(10, &day, lengths[first], lengths[second]);
    }
    EXPECT(funding_run(10, day.bytes, day.length, NULL, 0, NULL, 0), 0);
    EXPECT(funding_run(10, NULL, 0, NULL, 0, NULL, 0), 0);
    free(day.bytes);
}

/* Document 01's day with other accounts. */
static struct file two_byte_day(void)
{
    struct file day = {NULL, 0, 0};
    add_quote(&day, 200100, 200300);
    add_minute_ends(&day, 1319, 200000);
    add_two_byte_trade(&day, 255, 256, 12, 200200);
    add_minute_ends(&day, 1, 200000);
    add_fix(&day, 0);
    add_two_byte_trade(&day, 256, 1023, 5, 200100);
    add_close(&day);
    return day;
}

static void trades_of_two_byte_accounts(void)
{
    struct file day = two_byte_day();
    EXPECT(run(10, &day), 1325);
    expect_account(255, 12, -24000);
    expect_account(256, -7, 19000);
    expect_account(1023, -5, 5000);
    EXPECT(accounts_shown(), 3);
    free(day.bytes);
}

/* The bytes of account 259 are 1 and 3, which the other way round are account 769. */
static void either_tag_trades_for_an_account(void)
{
    struct file day = two_byte_day();
    add_trade(&day, 255, 1, 4, 200000);
    add_two_byte_trade(&day, 3, 255, 9, 200000);
    add_two_byte_trade(&day, 259, 1, 2, 200000);
    EXPECT(run(10, &day), 1328);
    expect_account(1, -6, 0);
    expect_account(3, 9, 0);
    expect_account(255, 7, -24000);
    expect_account(259, 2, 0);
    EXPECT(accounts_shown(), 6);
    free(day.bytes);
}

static void every_account_has_its_entry(void)
{
    struct file day = {NULL, 0, 0};
    for (int account = 0; account < FUNDING_ACCOUNTS; account += 2)
        add_two_byte_trade(&day, (uint16_t)account, (uint16_t)(account + 1), (uint32_t)account + 1, 200200);
    EXPECT(run(1, &day), FUNDING_ACCOUNTS / 2);
    for (int account = 0; account < FUNDING_ACCOUNTS; account += 2) {
        expect_account(account, account + 1, 0);
        expect_account(account + 1, -(account + 1), 0);
    }
    free(day.bytes);
}

static void accounts_above_1023_are_refused(void)
{
    static const uint16_t above[] = {1024, 1279, 2047, 32768, 65535};
    struct file day = {NULL, 0, 0};
    for (size_t account = 0; account < sizeof above / sizeof above[0]; account++) {
        add_two_byte_trade(&day, above[account], 3, 12, 200200);
        add_two_byte_trade(&day, 3, above[account], 12, 200200);
        add_two_byte_trade(&day, above[account], above[account], 12, 200200);
    }
    EXPECT(run(10, &day), 0);
    EXPECT(accounts_shown(), 0);
    add_two_byte_trade(&day, 1023, 3, 12, 200200);
    EXPECT(run(10, &day), 1);
    expect_account(3, -12, 0);
    expect_account(1023, 12, 0);
    EXPECT(accounts_shown(), 2);
    free(day.bytes);
}

/* Either tag with the length of the other one: the body is passed over. */
static void lengths_of_the_other_tag_are_refused(void)
{
    static const uint8_t body[13] = {1, 0, 1, 1, 0, 0, 0, 0, 12, 0, 3, 14, 8};
    struct file day = {NULL, 0, 0};
    add_record(&day, 10, body, 11);
    add_trade(&day, 3, 7, 12, 200200);
    add_record(&day, 1, body, 13);
    add_two_byte_trade(&day, 3, 7, 12, 200200);
    EXPECT(run(10, &day), 2);
    expect_account(3, 24, 0);
    expect_account(7, -24, 0);
    EXPECT(accounts_shown(), 2);
    free(day.bytes);
}

int test_accounts(void)
{
    static const test_function tests[] = {
        lists_of_other_lengths_are_refused,
        trades_of_two_byte_accounts,
        either_tag_trades_for_an_account,
        every_account_has_its_entry,
        accounts_above_1023_are_refused,
        lengths_of_the_other_tag_are_refused,
    };
    return play(tests, sizeof tests / sizeof tests[0]);
}

/* Tests of funding_run. */
#include "days.h"
#include "funding.h"
#include "host.h"
#include "lists.h"
#include <stdlib.h>
#include <time.h>

/* Plays a day of add_example: the records accepted, and document 01's positions and cash. */
static void expect_day(struct file *day, uint64_t accepted)
{
    EXPECT(run(10, day), accepted);
    expect_account(3, 12, -24000);
    expect_account(7, -7, 19000);
    expect_account(9, -5, 5000);
    EXPECT(accounts_shown(), 3);
    free(day->bytes);
}

static void the_example_of_document_01(void)
{
    struct file day = example_day();
    expect_day(&day, 1325);
}

/* The same day with 1,140 minutes. Refused are another length, a second one and a minute end. */
static void a_short_day(void)
{
    struct file day = {NULL, 0, 0};
    add_length(&day, 1141);
    add_length(&day, 1140);
    add_length(&day, 1320);
    add_example(&day, 1139, 2);
    expect_day(&day, 1146);
}

static void midpoints_settle_a_day(void)
{
    struct file day = midpoint_day();
    EXPECT(run(10, &day), 1336 - 6);
    expect_account(3, 12, -18480);
    expect_account(7, -12, 18480);
    EXPECT(accounts_shown(), 2);
    free(day.bytes);
}

static void a_contract_to_its_end(void)
{
    struct file contract = whole_contract();
    const size_t whole = contract.length;
    contract.length = whole - FROM_FINAL_CLOSE;
    EXPECT(run(10, &contract), 2349);
    expect_account(3, 16, -24000);
    expect_account(7, -7, 19000);
    expect_account(9, -9, 5000);
    contract.length = whole;
    EXPECT(run(10, &contract), 2350);
    expect_account(3, 0, -24800);
    expect_account(7, 0, 17600);
    expect_account(9, 0, 7200);
    EXPECT(accounts_shown(), 3);
    free(contract.bytes);
}

static void the_open_day_is_reported(void)
{
    struct file day = example_day();
    add_trade(&day, 0, 255, 4, 200000);
    EXPECT(run(10, &day), 1326);
    expect_account(0, 4, 0);
    expect_account(255, -4, 0);
    expect_account(3, 12, -24000);
    EXPECT(accounts_shown(), 5);
    free(day.bytes);
}

static void other_sizes_are_refused(void)
{
    struct file day = example_day();
    for (int size = 0; size <= UINT8_MAX; size++)
        if (size != 1 && size != 10)
            expect_refused((uint8_t)size, &day, FUNDING_ACCOUNTS, FUNDING_ACCOUNTS);
    EXPECT(run(1, &day), 1325);
    free(day.bytes);
}

static void an_empty_file_fills_zeros(void)
{
    struct file none = {NULL, 0, 0};
    EXPECT(run(10, &none), 0);
    EXPECT(accounts_shown(), 0);
    none.bytes = (uint8_t *)"";
    EXPECT(run(1, &none), 0);
    EXPECT(accounts_shown(), 0);
}

/* A file that ends anywhere in its last record reports the trade before it. */
static void expect_cut_off(struct file *day, size_t before)
{
    const size_t whole = day->length;
    for (day->length = before; day->length < whole; day->length++) {
        EXPECT(run(10, day), 1);
        expect_account(3, 12, 0);
        expect_account(7, -12, 0);
        EXPECT(accounts_shown(), 2);
    }
    EXPECT(run(10, day), 2);
    EXPECT(accounts_shown(), 4);
}

static void a_record_cut_off_ends_the_run(void)
{
    struct file day = {NULL, 0, 0};
    add_trade(&day, 3, 7, 12, 200200);
    const size_t before = day.length;
    add_trade(&day, 5, 6, 1, 200200);
    expect_cut_off(&day, before);
    day.length = before;
    add_two_byte_trade(&day, 5, 1023, 1, 200200);
    expect_cut_off(&day, before);
    free(day.bytes);
}

/* Records that aren't accepted, each with a trade after it. */
static void only_accepted_records_count(void)
{
    static const uint8_t known_tags[] = {1, 2, 3, 4, 5, 6, 7, 8, 9, 10, 11, 12};
    static const uint8_t body[] = {1, 0, 11, 3, 7};
    struct file day = {NULL, 0, 0};
    int trades = 0;
    for (size_t tag = 0; tag < sizeof known_tags; tag++) {
        add_record(&day, known_tags[tag], body, sizeof body);
        add_trade(&day, 3, 7, 12, 200200);
        trades++;
    }
    for (int tag = 0; tag <= UINT8_MAX; tag++)
        if (tag == 0 || tag > 12) {
            add_record(&day, (uint8_t)tag, body, tag % 2 == 0 ? 0 : sizeof body);
            add_trade(&day, 3, 7, 12, 200200);
            trades++;
        }
    add_trade(&day, 3, 7, 0, 200200);
    add_trade(&day, 3, 7, 12, 4999);
    add_quote(&day, 200300, 200100);
    add_fix(&day, 0);
    add_close(&day);
    add_length(&day, 1140);
    add_final_date(&day, 2035, 10);
    add_final_fix(&day, 200200);
    EXPECT(run(1, &day), trades);
    expect_account(3, 12 * trades, 0);
    expect_account(7, -12 * trades, 0);
    EXPECT(accounts_shown(), 2);
    free(day.bytes);
}

/* A book has at most 2,600 closed days. A long position pays 20 cents a contract on each. */
static void a_book_of_all_its_days(void)
{
    const int64_t days = 2600, records_of_a_day = 1323, paid = 12 * 20 * 100;
    struct file file = {NULL, 0, 0};
    add_trade(&file, 3, 7, 12, 200200);
    for (int day = 0; day < days; day++)
        add_day(&file);
    size_t whole = file.length;
    add_trade(&file, 3, 7, 12, 200200);
    add_day(&file);
    clock_t start = clock();
    EXPECT(run(10, &file), 1 + days * records_of_a_day);
    EXPECT((clock() - start) / CLOCKS_PER_SEC, 0);
    expect_account(3, 12, -days * paid);
    expect_account(7, -12, days * paid);
    EXPECT(accounts_shown(), 2);
    file.length = whole;
    EXPECT(run(10, &file), 1 + days * records_of_a_day);
    /* Without the last close, the next records are accepted. */
    file.length = whole - 3;
    add_trade(&file, 3, 7, 12, 200200);
    EXPECT(run(10, &file), 1 + days * records_of_a_day);
    expect_account(3, 24, -(days - 1) * paid);
    free(file.bytes);
}

int test_runs(void)
{
    static const test_function tests[] = {
        the_example_of_document_01,
        a_short_day,
        midpoints_settle_a_day,
        a_contract_to_its_end,
        the_open_day_is_reported,
        other_sizes_are_refused,
        an_empty_file_fills_zeros,
        a_record_cut_off_ends_the_run,
        only_accepted_records_count,
        a_book_of_all_its_days,
    };
    return play(tests, sizeof tests / sizeof tests[0]);
}

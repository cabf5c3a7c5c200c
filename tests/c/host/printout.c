/* Tests of funding_printout. */
#include "days.h"
#include "funding.h"
#include "host.h"
#include <stdlib.h>
#include <string.h>

/* A byte that no printout has. */
#define UNTOUCHED 0xA5
#define TEXT_LIMIT (1 << 20)

/* A buffer for a printout, with guards on both sides of it. */
static uint8_t text_memory[GUARD + TEXT_LIMIT + GUARD];
static uint8_t *const text = text_memory + GUARD;

/* Asks for a part of a printout, of at most `out_len` bytes: the length of the whole that is
   returned. Nothing may be written but the part. */
static size_t ask(const struct file *input, size_t from, size_t out_len)
{
    EXPECT(out_len <= TEXT_LIMIT, 1);
    memset(text_memory, UNTOUCHED, GUARD + out_len + GUARD);
    size_t length = funding_printout(input->bytes, input->length, from, text, out_len);
    size_t left = from < length ? length - from : 0;
    size_t filled = left < out_len ? left : out_len;
    int touched = 0;
    for (size_t byte = 0; byte < GUARD + out_len + GUARD; byte++)
        if (byte < GUARD || byte >= GUARD + filled)
            touched += text_memory[byte] != UNTOUCHED;
    EXPECT(touched, 0);
    return length;
}

/* The whole printout, to be freed; its length goes to `length`. */
static uint8_t *whole_printout(const struct file *input, size_t *length)
{
    struct file copy = {NULL, 0, 0};
    *length = ask(input, 0, TEXT_LIMIT);
    EXPECT(*length <= TEXT_LIMIT, 1);
    add_bytes(&copy, text, *length);
    return copy.bytes;
}

static void expect_printout(const struct file *input, const char *expected)
{
    size_t length = strlen(expected);
    EXPECT(funding_printout(input->bytes, input->length, 0, NULL, 0), length);
    EXPECT(ask(input, 0, length + 1), length);
    EXPECT(memcmp(text, expected, length), 0);
}

/* An input is a size byte and then the records. */
static struct file input_of(uint8_t size, const struct file *records)
{
    struct file input = {NULL, 0, 0};
    add_bytes(&input, &size, 1);
    add_bytes(&input, records->bytes, records->length);
    return input;
}

static struct file example_input(void)
{
    struct file day = example_day();
    struct file input = input_of(10, &day);
    free(day.bytes);
    return input;
}

static void the_printout_of_document_01(void)
{
    struct file input = example_input();
    expect_printout(&input, "day 1 price 200200 rate 1000000 amount -20 valid 1320\n"
                            "acct 3 net 12 cash -24000\n"
                            "acct 7 net -7 cash 19000\n"
                            "acct 9 net -5 cash 5000\n"
                            "end\n");
    free(input.bytes);
}

static void the_printout_of_a_day_that_midpoints_settle(void)
{
    struct file day = midpoint_day();
    struct file input = input_of(10, &day);
    expect_printout(&input, "refused 5 record 1\n"
                            "refused 6 record 2\n"
                            "refused 11 record 4\n"
                            "refused 11 record 1328\n"
                            "refused 11 record 1332\n"
                            "day 1 price 200246 rate 1000000 amount -20 valid 1320\n"
                            "refused 11 record 1334\n"
                            "acct 3 net 12 cash -18480\n"
                            "acct 7 net -12 cash 18480\n"
                            "end\n");
    free(input.bytes);
    free(day.bytes);
}

static void the_printout_of_a_contract_to_its_end(void)
{
    struct file contract = whole_contract();
    struct file input = input_of(10, &contract);
    expect_printout(&input, "day 1 price 200200 rate 1000000 amount -20 valid 1320\n"
                            "acct 3 net 12 cash -24000\n"
                            "acct 7 net -7 cash 19000\n"
                            "acct 9 net -5 cash 5000\n"
                            "final 25\n"
                            "refused 3 record 2348\n"
                            "day 2 price 200420 rate 999001 amount -20 valid 1020\n"
                            "acct 3 net 0 cash -24800\n"
                            "acct 7 net 0 cash 17600\n"
                            "acct 9 net 0 cash 7200\n"
                            "refused 3 record 2352\n"
                            "refused 3 record 2353\n"
                            "end\n");
    free(input.bytes);
    free(contract.bytes);
}

/* Refusal 12 comes after 1, 4 and 5 and before 7 and 8. Account 3 reaches 2,000,000 contracts of
   the day by trades with itself, account 5 a position of 1,200,000. Every trade is at the
   settlement price, so that cash is the amount's alone: 2,000 paid for each contract held. */
static struct file day_of_refused_accounts(void)
{
    static const uint8_t body[11] = {4, 0, 4, 0};
    struct file day = {NULL, 0, 0};
    add_record(&day, 10, body, sizeof body);         /* record 1: refused 1 */
    add_two_byte_trade(&day, 1024, 3, 12, 200200);   /* record 2: refused 12 */
    add_two_byte_trade(&day, 3, 65535, 12, 200200);  /* record 3: refused 12 */
    add_two_byte_trade(&day, 1024, 1024, 0, 200200); /* record 4: refused 5 */
    add_two_byte_trade(&day, 1023, 256, 12, 200200);
    add_record(&day, 4, NULL, 0);
    add_two_byte_trade(&day, 1024, 3, 12, 200200); /* record 7: refused 4 */
    add_record(&day, 5, NULL, 0);
    for (int trade = 0; trade < 10; trade++)
        add_trade(&day, 3, 3, 100000, 200200);
    add_two_byte_trade(&day, 3, 1024, 1, 200200); /* record 19: refused 12 */
    add_two_byte_trade(&day, 3, 1023, 1, 200200); /* record 20: refused 7 */
    for (int trade = 0; trade < 12; trade++)
        add_two_byte_trade(&day, 5, 1023, 100000, 200200);
    add_two_byte_trade(&day, 5, 1024, 1, 200200); /* record 33: refused 12 */
    add_two_byte_trade(&day, 5, 1023, 1, 200200); /* record 34: refused 8 */
    add_day(&day);
    return day;
}

static void the_printout_of_refused_accounts(void)
{
    struct file day = day_of_refused_accounts();
    struct file input = input_of(10, &day);
    expect_printout(&input, "refused 1 record 1\n"
                            "refused 12 record 2\n"
                            "refused 12 record 3\n"
                            "refused 5 record 4\n"
                            "refused 4 record 7\n"
                            "refused 12 record 19\n"
                            "refused 7 record 20\n"
                            "refused 12 record 33\n"
                            "refused 8 record 34\n"
                            "day 1 price 200200 rate 1000000 amount -20 valid 1320\n"
                            "acct 5 net 1200000 cash -2400000000\n"
                            "acct 256 net -12 cash 24000\n"
                            "acct 1023 net -1199988 cash 2399976000\n"
                            "end\n");
    free(input.bytes);
    free(day.bytes);
}

/* Asks for a part of a printout that is known whole. */
static void expect_part(const struct file *input, size_t from, size_t out_len,
                        const uint8_t *whole, size_t length)
{
    size_t left = length - from;
    EXPECT(ask(input, from, out_len), length);
    EXPECT(memcmp(text, whole + from, left < out_len ? left : out_len), 0);
}

/* From every byte on in buffers of some lengths, and from the first one in buffers of any. */
static void any_part_is_of_the_whole(void)
{
    static const size_t parts[] = {0, 1, 3, 1000};
    struct file input = example_input();
    size_t length;
    uint8_t *whole = whole_printout(&input, &length);
    for (size_t part = 0; part < sizeof parts / sizeof parts[0]; part++)
        for (size_t from = 0; from < length; from++)
            expect_part(&input, from, parts[part], whole, length);
    for (size_t part = 0; part <= length + 1; part++)
        expect_part(&input, 0, part, whole, length);
    free(whole);
    free(input.bytes);
}

/* A day on which every account has a line, so that no small buffer holds the printout. */
static struct file crowded_input(void)
{
    struct file day = {NULL, 0, 0};
    for (int account = 0; account < FUNDING_ACCOUNTS; account += 2)
        add_two_byte_trade(&day, (uint16_t)account, (uint16_t)(account + 1), 12, 200200);
    add_day(&day);
    struct file input = input_of(10, &day);
    free(day.bytes);
    return input;
}

static void parts_put_together_are_the_whole(void)
{
    static const size_t parts[] = {33, 100, 4096, 1 << 16};
    struct file input = crowded_input();
    size_t length;
    uint8_t *whole = whole_printout(&input, &length);
    EXPECT(length > 4096, 1);
    for (size_t part = 0; part < sizeof parts / sizeof parts[0]; part++) {
        struct file together = {NULL, 0, 0};
        while (together.length < length) {
            size_t left = length - together.length;
            EXPECT(ask(&input, together.length, parts[part]), length);
            add_bytes(&together, text, left < parts[part] ? left : parts[part]);
        }
        EXPECT(memcmp(together.bytes, whole, length), 0);
        free(together.bytes);
    }
    free(whole);
    free(input.bytes);
}

/* `ask` expects every byte untouched then. */
static void nothing_is_written_from_the_end_on(void)
{
    struct file input = example_input();
    size_t length = funding_printout(input.bytes, input.length, 0, NULL, 0);
    const size_t beyond[] = {length, length + 1, 1 << 16, SIZE_MAX / 2 + 1, SIZE_MAX - 1, SIZE_MAX};
    for (size_t from = 0; from < sizeof beyond / sizeof beyond[0]; from++) {
        EXPECT(ask(&input, beyond[from], 1000), length);
        EXPECT(funding_printout(input.bytes, input.length, beyond[from], NULL, 0), length);
    }
    free(input.bytes);
}

static void a_size_alone_has_a_printout(void)
{
    struct file none = {NULL, 0, 0};
    expect_printout(&none, "refused 5 record 0\nend\n");
    for (int size = 0; size <= UINT8_MAX; size++) {
        struct file input = input_of((uint8_t)size, &none);
        expect_printout(&input, size == 1 || size == 10 ? "end\n" : "refused 5 record 0\nend\n");
        free(input.bytes);
    }
}

/* Halts, of which all but the first are refused. The limit ends the input after a record, within
   one, or before the last byte of one, by the length of an unknown record before them. */
static void only_the_first_bytes_count_for_a_printout(void)
{
    static const uint8_t body[3] = {0};
    for (size_t shift = 0; shift < 3; shift++) {
        struct file records = {NULL, 0, 0};
        add_record(&records, 200, body, shift);
        while (records.length < FUNDING_PRINTOUT_INPUT + 1000)
            add_record(&records, 4, NULL, 0);
        struct file input = input_of(1, &records);
        size_t length, length_of_long;
        uint8_t *whole_of_long = whole_printout(&input, &length_of_long);
        input.length = FUNDING_PRINTOUT_INPUT;
        uint8_t *whole = whole_printout(&input, &length);
        EXPECT(length_of_long, length);
        EXPECT(memcmp(whole_of_long, whole, length), 0);
        /* All of them count. */
        input.length = FUNDING_PRINTOUT_INPUT - 3;
        EXPECT(funding_printout(input.bytes, input.length, 0, NULL, 0) < length, 1);
        free(whole_of_long);
        free(whole);
        free(input.bytes);
        free(records.bytes);
    }
}

int test_printouts(void)
{
    static const test_function tests[] = {
        the_printout_of_document_01,
        the_printout_of_a_day_that_midpoints_settle,
        the_printout_of_a_contract_to_its_end,
        the_printout_of_refused_accounts,
        any_part_is_of_the_whole,
        parts_put_together_are_the_whole,
        nothing_is_written_from_the_end_on,
        a_size_alone_has_a_printout,
        only_the_first_bytes_count_for_a_printout,
    };
    return play(tests, sizeof tests / sizeof tests[0]);
}

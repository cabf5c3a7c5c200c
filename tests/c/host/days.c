#include "days.h"

void add_example(struct file *day, int before, int after)
{
    add_quote(day, 200100, 200300);
    add_minute_ends(day, before, 200000);
    add_trade(day, 3, 7, 12, 200200);
    add_minute_ends(day, after, 200000);
    add_fix(day, 0);
    add_trade(day, 7, 9, 5, 200100);
    add_close(day);
}

struct file example_day(void)
{
    struct file day = {NULL, 0, 0};
    add_example(&day, 1319, 1);
    return day;
}

struct file midpoint_day(void)
{
    struct file day = {NULL, 0, 0};
    add_timed_quote(&day, 60000, 200300, 200100); /* record 1: refused 5 */
    add_timed_quote(&day, 30000, 200300, 200100); /* record 2: refused 6 */
    add_timed_quote(&day, 20000, 200100, 200300);
    add_timed_quote(&day, 19999, 200300, 200100); /* record 4: refused 11 */
    add_trade(&day, 3, 7, 12, 200200);
    add_minute_ends(&day, 1319, 200000);
    add_timed_quote(&day, 20000, 0, 200300);
    add_timed_quote(&day, 30000, 200200, 200500);
    add_quote(&day, 200190, 200310);
    add_timed_quote(&day, 29999, 200110, 200510); /* record 1328: refused 11 */
    add_timed_quote(&day, 46250, 200110, 200510);
    add_minute_ends(&day, 1, 200000);
    add_timed_quote(&day, 10000, 200400, 200600);
    add_timed_quote(&day, 9999, 200400, 200600); /* record 1332: refused 11 */
    add_fix(&day, 0);
    add_timed_quote(&day, 9999, 200400, 200600); /* record 1334: refused 11 */
    add_close(&day);
    add_timed_quote(&day, 0, 200400, 200600);
    return day;
}

struct file whole_contract(void)
{
    struct file contract = example_day();
    add_final_date(&contract, 2026, 12);
    add_quote(&contract, 200300, 200500);
    add_minute_ends(&contract, 1020, 200200);
    add_fix(&contract, 200400); /* record 2348: refused 3 */
    add_final_fix(&contract, 200425);
    add_trade(&contract, 3, 9, 4, 200300);
    add_close(&contract);
    add_trade(&contract, 3, 7, 12, 200200); /* record 2352: refused 3 */
    add_final_date(&contract, 2027, 1);     /* record 2353: refused 3 */
    return contract;
}

void add_day(struct file *file)
{
    add_quote(file, 200100, 200300);
    add_minute_ends(file, 1320, 200000);
    add_fix(file, 200200);
    add_close(file);
}

/* Days that several tests play. */
#ifndef DAYS_H
#define DAYS_H

#include "records.h"

/* The calls of document 01's day, with so many minute ends before its first trade and after it. */
void add_example(struct file *day, int before, int after);

/* Document 01's day. */
struct file example_day(void);

/* A day that its midpoints settle. Refused are a time above 59,999, before the crossed sides are
   looked at; crossed sides, which give no time; and, before the crossed sides, a time that runs
   back: in the first minute, in the last one, and on both sides of the fix. The close lets the
   times begin again.

   In the last minute stand
       200100/200300 from 0 to 20,000: 20,000 ms at 200,200,
       an offer alone from 20,000 to 30,000,
       200200/200500 from 30,000 on, replaced at once by the quote without a time,
       200190/200310 from 30,000 to 46,250: 16,250 ms at 200,250,
       200110/200510 from 46,250 to 60,000: 13,750 ms at 200,310.
   That is 50,000 ms. Beyond 200,200 the midpoints come to 16,250 x 50 + 13,750 x 110 = 2,325,000,
   and 2,325,000 / 50,000 is 46.5, a tie: the price is 200,246. Every minute has a last price of
   200,200 inside its market and an index of 200,000, so that the rate is 1,000,000; the amount is
   -1,000,000 x 200,246 x 10 / 10^11 = -20.0246, rounded to -20. Account 3 makes
   12 x (200,246 - 200,200) x 10 = 5,520 and pays 12 x 20 x 100 = 24,000. */
struct file midpoint_day(void);

/* Document 01's day, the contract's final date, and two records after its end. The fix by a set
   price on the final date and those two are refused.

   Every minute of the final date has a basis of 200 / 200,200 = 999,000.999 nano, so that the
   rate is 999,001. The hourly index value, 200,425, is a tie: the price is 200,420, and the
   amount -999,001 x 200,420 x 10 / 10^11 = -20.022, rounded to -20. Before the close the
   positions are 16, -7 and -9, each worth 2,000 paid for a contract held; the price is 220 above
   document 01's, and 120 above the last trade's:
       account 3: -24,000 + (12 x 220 + 4 x 120) x 10 - 32,000 = -24,800
       account 7:  19,000 -  7 x 220 x 10             + 14,000 =  17,600
       account 9:   5,000 - (5 x 220 + 4 x 120) x 10  + 18,000 =   7,200 */
struct file whole_contract(void);

/* The bytes from its final close to its end. */
#define FROM_FINAL_CLOSE (3 + 14 + 6)

/* What is left of a day, from its market to its close. Its minutes are valid, and it settles at 200,200. */
void add_day(struct file *file);

#endif

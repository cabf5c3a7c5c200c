//! A contract's end. All sentences are of 02-7, unless marked.

use crate::accounts::position;
use crate::call::{Account, Call, Month};
use crate::fraction::Fraction;
use crate::history::{Day, History};
use crate::rules::{CallRules, RefusalRules, Rules};
use crate::terms::{DIME, FRIDAY};
use std::ops::RangeInclusive;

/// An account at the close of the last of the first `days` days.
pub struct AtClose<'a> {
    pub history: &'a History,
    pub account: Account,
    pub days: usize,
    pub rules: Rules,
}

/// Days count from 0, as those of `CallRules`.
pub trait ExpiryRules: Sync {
    // The calendar.

    /// 14: "A month outside the table", which has "January 2025 to December 2050": its years,
    fn years(&self) -> RangeInclusive<u16> {
        2_025..=2_050
    }

    /// and its months.
    fn is_in_table(&self, month: Month) -> bool {
        self.years().contains(&month.year) && (1..=12).contains(&month.month)
    }

    /// Every fourth year, but of the centuries only every fourth.
    fn is_leap_year(&self, year: u16) -> bool {
        year.is_multiple_of(4) && (!year.is_multiple_of(100) || year.is_multiple_of(400))
    }

    fn days_of_month(&self, month: Month) -> u8 {
        match month.month {
            2 if self.is_leap_year(month.year) => 29,
            2 => 28,
            4 | 6 | 9 | 11 => 30,
            _ => 31,
        }
    }

    /// The days of a week count from Monday, 0. 1 January 2000 was a Saturday.
    fn weekday_of_new_year_2000(&self) -> u32 {
        5
    }

    /// By the days from that one on.
    fn weekday(&self, month: Month, day: u8) -> u32 {
        let year_before = |year| 365 + u32::from(self.is_leap_year(year));
        let month_before = |number| {
            let month = Month {
                month: number,
                ..month
            };
            u32::from(self.days_of_month(month))
        };
        let years: u32 = (2_000..month.year).map(year_before).sum();
        let months: u32 = (1..month.month).map(month_before).sum();
        (self.weekday_of_new_year_2000() + years + months + u32::from(day) - 1) % 7
    }

    /// "The last Friday of its month": "a Friday within the month's last seven days".
    fn last_friday(&self, month: Month) -> u8 {
        let last = self.days_of_month(month);
        let mut seven = last - 6..=last;
        let friday = seven.find(|day| self.weekday(month, *day) == FRIDAY);
        friday.expect("seven days have a Friday")
    }

    /// "Prints `final` and the Friday's day."
    fn printed(&self, month: Month) -> u8 {
        self.last_friday(month)
    }

    // A final date.

    /// It "may come where tag 8 may, one of the two per date"; 3: "a tag 11 out of place".
    fn final_date_is_late(&self, history: &History, refusals: &dyn RefusalRules) -> bool {
        refusals.length_of_day_is_late(history)
    }

    /// "It makes the date final."
    fn is_final(&self, day: &Day) -> bool {
        day.is_final()
    }

    /// Tag 12 "is the only fix on such a date"; 3: "a fix of the wrong kind".
    fn fix_is_of_wrong_kind(&self, day: &Day, fix: Call) -> bool {
        self.is_final(day) != matches!(fix, Call::FinalFix(_))
    }

    /// 5: "an hourly value that is no price".
    fn is_hourly_value(&self, value: u32, rules: &dyn CallRules) -> bool {
        rules.is_price(value.into())
    }

    /// "The settlement price is that value rounded to the nearest 10 cents",
    fn final_price(&self, _history: &History, _day: usize, hourly: u32, rules: Rules) -> i128 {
        DIME * self.dimes(Fraction::new(hourly.into(), DIME), rules.calls)
    }

    /// "ties to the even dime"; `exact` is the number of dimes.
    fn dimes(&self, exact: Fraction, rules: &dyn CallRules) -> i128 {
        rules.half_even(exact)
    }

    // The end.

    /// "The final close [...] clears every present and opening position": whether the close of a day
    /// does.
    fn clears(&self, day: &Day) -> bool {
        self.is_final(day)
    }

    /// It clears them "before printing": the position that is printed,
    fn printed_net(&self, at: &AtClose) -> i128 {
        position(at.history, at.account, at.days, at.rules)
    }

    /// and the one by which an account is printed.
    fn net_to_print_by(&self, at: &AtClose) -> i128 {
        self.printed_net(at)
    }

    /// "The book then accepts reports only."
    fn has_ended(&self, history: &History) -> bool {
        let last = history.last_closed_day();
        last.is_some_and(|day| self.is_final(day))
    }

    /// 3: "any call after the final close",
    fn end_forbids(&self, history: &History, _call: Call) -> bool {
        self.has_ended(history)
    }

    /// and any set of trades.
    fn end_forbids_set(&self, history: &History) -> bool {
        self.has_ended(history)
    }
}

//! Wrong last Fridays, and wrong tables of months.

use reference::call::Month;
use reference::rules::{ExpiryRules, RightLedger};
use reference::terms::FRIDAY;

pub struct FourthFriday;

impl ExpiryRules for FourthFriday {
    fn last_friday(&self, month: Month) -> u8 {
        let is_friday = |day: &u8| RightLedger.weekday(month, *day) == FRIDAY;
        let first = (1..=7).find(is_friday);
        first.expect("seven days have a Friday") + 21
    }
}

pub struct MonthPrinted;

impl ExpiryRules for MonthPrinted {
    fn printed(&self, month: Month) -> u8 {
        month.month
    }
}

/// The new year of 2000 was on this day of a week.
pub struct NewYear2000(u32);

impl ExpiryRules for NewYear2000 {
    fn weekday_of_new_year_2000(&self) -> u32 {
        self.0
    }
}

pub static WEEKDAY_ONE_LESS: NewYear2000 = NewYear2000(4);
pub static WEEKDAY_ONE_MORE: NewYear2000 = NewYear2000(6);

pub struct LeapYearsLeftOut;

impl ExpiryRules for LeapYearsLeftOut {
    fn is_leap_year(&self, _year: u16) -> bool {
        false
    }
}

/// The later months of a leap year begin a day early, the next year doesn't.
pub struct LeapDayAfterItsYear;

impl ExpiryRules for LeapDayAfterItsYear {
    fn days_of_month(&self, month: Month) -> u8 {
        RightLedger.days_of_month(month).min(match month.month {
            2 => 28,
            _ => 31,
        })
    }
}

/// These months are in the table.
pub struct Table(fn(Month) -> bool);

impl ExpiryRules for Table {
    fn is_in_table(&self, month: Month) -> bool {
        self.0(month)
    }
}

fn is_right(month: Month) -> bool {
    RightLedger.is_in_table(month)
}

pub static YEARS_PAST_2050: Table = Table(|month| is_right(month) || is_in_year_after_2050(month));
pub static YEAR_2024: Table = Table(|month| is_right(month) || is_in_year_2024(month));
pub static YEAR_2025_REFUSED: Table = Table(|month| is_right(month) && month.year != 2_025);
pub static YEAR_2050_REFUSED: Table = Table(|month| is_right(month) && month.year != 2_050);
pub static DECEMBER_REFUSED: Table = Table(|month| is_right(month) && month.month != 12);
pub static ANY_MONTH: Table = Table(|month| RightLedger.years().contains(&month.year));

fn is_in_year_after_2050(month: Month) -> bool {
    month.year > 2_050 && (1..=12).contains(&month.month)
}

fn is_in_year_2024(month: Month) -> bool {
    month.year == 2_024 && (1..=12).contains(&month.month)
}

/// A month is another one, which is tested in its place.
pub struct ReadAs(fn(Month) -> Month);

impl ExpiryRules for ReadAs {
    fn is_in_table(&self, month: Month) -> bool {
        RightLedger.is_in_table(self.0(month))
    }

    fn last_friday(&self, month: Month) -> u8 {
        RightLedger.last_friday(self.0(month))
    }
}

pub static MONTH_13_AS_JANUARY: ReadAs = ReadAs(|month| match month.month {
    13 => Month {
        year: month.year.saturating_add(1),
        month: 1,
    },
    _ => month,
});
pub static MONTH_0_AS_DECEMBER: ReadAs = ReadAs(|month| match month.month {
    0 => Month {
        year: month.year.saturating_sub(1),
        month: 12,
    },
    _ => month,
});

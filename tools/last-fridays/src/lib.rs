//! The last Friday of a month, worked out from the first day of the month after it.
//!
//! The definitions of `crates/expiry` count onward from 1 January 2025 by the lengths of years and
//! months. Here days are counted from 1 March of the year 0, so that a leap day is the last of its
//! year, and no length is written down.

/// The years of the table.
pub const FIRST_YEAR: u32 = 2025;
pub const LAST_YEAR: u32 = 2050;
/// The months of a year.
pub const MONTHS: u32 = 12;

const WEEK: u32 = 7;

/// The day of the month of its last Friday.
pub fn last_friday(year: u32, month: u32) -> u32 {
    let next = if month == MONTHS {
        first_day(year + 1, 1)
    } else {
        first_day(year, month + 1)
    };
    let last = next - 1;
    let friday = last - days_since_friday(last);
    friday - first_day(year, month) + 1
}

/// The first day of a month of the Gregorian calendar, counted from 1 March of the year 0.
fn first_day(year: u32, month: u32) -> u32 {
    let (year, months) = if month < 3 {
        (year - 1, month + 9)
    } else {
        (year, month - 3)
    };
    // From March on, five months have 31, 30, 31, 30 and 31 days, and so again; February, the last, falls short.
    let days = (153 * months + 2) / 5;
    365 * year + year / 4 - year / 100 + year / 400 + days
}

/// How many days ago the latest Friday was, 0 on a Friday: 1 March of the year 0 was a Wednesday.
fn days_since_friday(day: u32) -> u32 {
    (day + 5) % WEEK
}

#[cfg(test)]
mod tests {
    use super::*;

    #[test]
    fn first_days_are_as_far_apart_as_the_months_are_long() {
        let lengths = |year| -> Vec<u32> {
            (1..MONTHS)
                .map(|month| first_day(year, month + 1) - first_day(year, month))
                .collect()
        };
        assert_eq!(lengths(2027), [31, 28, 31, 30, 31, 30, 31, 31, 30, 31, 30]);
        assert_eq!(lengths(2028), [31, 29, 31, 30, 31, 30, 31, 31, 30, 31, 30]);
        assert_eq!(first_day(2028, 1) - first_day(2027, 12), 31);
    }

    #[test]
    fn of_the_hundreds_every_fourth_is_a_leap_year() {
        let february = |year| first_day(year, 3) - first_day(year, 2);
        assert_eq!([1900, 2000, 2100, 2400].map(february), [28, 29, 28, 29]);
    }

    /// Fridays that the calendars of their time show.
    #[test]
    fn a_known_friday_is_one() {
        for (year, month, day) in [
            (1582, 10, 15),
            (1969, 7, 18),
            (1999, 12, 31),
            (2024, 11, 29),
        ] {
            assert_eq!(days_since_friday(first_day(year, month) + day - 1), 0);
        }
    }

    #[test]
    fn a_month_may_end_with_its_last_friday_and_on_the_thursday_after_it() {
        assert_eq!(last_friday(2025, 1), 31);
        assert_eq!(last_friday(2026, 4), 24);
        assert_eq!(last_friday(2030, 2), 22);
    }

    #[test]
    fn february_has_the_leap_day() {
        assert_eq!(last_friday(2028, 2), 25);
        assert_eq!(last_friday(2036, 2), 29);
    }

    #[test]
    fn december_ends_with_its_year() {
        assert_eq!(last_friday(2026, 12), 25);
        assert_eq!(last_friday(2050, 12), 30);
    }
}

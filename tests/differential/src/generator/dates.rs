//! Starts of dates, their lengths, and their ends.

use super::Generator;
use reference::terms::{FINAL_DAY, FULL_DAY, SHORT_DAY};

/// How far the contract is, if each call that should be accepted is.
#[derive(Clone, Copy, PartialEq, Eq)]
pub enum Contract {
    Open,
    FinalDate,
    Ended,
}

/// No lengths of a day: at both ends of the field, beside the two lengths, and that of a final date.
const REFUSED_LENGTHS: [u16; 8] = [
    0,
    FINAL_DAY - 1,
    FINAL_DAY,
    SHORT_DAY - 1,
    SHORT_DAY + 1,
    FULL_DAY - 1,
    FULL_DAY + 1,
    u16::MAX,
];

/// At both ends of the table.
const OUTERMOST_MONTHS: [(u16, u8); 4] = [(2_025, 1), (2_025, 12), (2_050, 1), (2_050, 12)];

/// Outside it by one year or one month, with both outside, and at the ends of the fields.
const REFUSED_MONTHS: [(u16, u8); 15] = [
    (2_024, 12),
    (2_024, 1),
    (2_024, 13),
    (2_025, 0),
    (2_025, 13),
    (2_050, 0),
    (2_050, 13),
    (2_051, 1),
    (2_051, 12),
    (2_051, 0),
    (2_035, u8::MAX),
    (0, 1),
    (0, 0),
    (u16::MAX, 12),
    (u16::MAX, u8::MAX),
];

/// What is beside a dime, mostly a tie.
const BESIDE_A_DIME: [u32; 7] = [0, 1, 4, 5, 5, 5, 6];

impl Generator {
    /// The start of a date, now and then with its length of day, seldom a final date. It gives the
    /// minutes of the date.
    pub fn start_date(&mut self) -> usize {
        match self.random.chance(4) {
            true => self.final_date(),
            false => self.start_ordinary_date(),
        }
    }

    pub fn start_ordinary_date(&mut self) -> usize {
        match self.random.below(10) {
            0..=2 => self.length_of_day(SHORT_DAY),
            3 => self.length_of_day(FULL_DAY),
            _ => FULL_DAY.into(),
        }
    }

    pub fn length_of_day(&mut self, minutes: u16) -> usize {
        self.file.length_of_day(minutes);
        minutes.into()
    }

    /// A record that makes the date final, if it isn't late and the contract hasn't ended.
    pub fn final_date(&mut self) -> usize {
        let (year, month) = self.month_in_table();
        self.file.final_date(year, month);
        if self.contract == Contract::Open {
            self.contract = Contract::FinalDate;
        }
        FINAL_DAY.into()
    }

    /// It mostly comes where the date has begun.
    pub fn late_final_date(&mut self) {
        let (year, month) = self.month_in_table();
        self.file.final_date(year, month);
    }

    fn month_in_table(&mut self) -> (u16, u8) {
        match self.random.chance(20) {
            true => self.random.pick(&OUTERMOST_MONTHS),
            false => (self.year_in_table(), self.random.between(1, 12) as u8),
        }
    }

    fn year_in_table(&mut self) -> u16 {
        self.random.between(2_025, 2_050) as u16
    }

    pub fn refused_final_date(&mut self) {
        let (year, month) = match self.random.chance(40) {
            true => (self.year_in_table(), self.random.pick(&[0, 13])),
            false => self.random.pick(&REFUSED_MONTHS),
        };
        self.file.final_date(year, month);
    }

    pub fn refused_length_of_day(&mut self) {
        let minutes = self.random.pick(&REFUSED_LENGTHS);
        self.file.length_of_day(minutes);
    }

    /// By either tag that sets a length, good or refused.
    pub fn any_length_of_day(&mut self) {
        match self.random.below(6) {
            0 => {
                self.file.length_of_day(FULL_DAY);
            }
            1 => {
                self.file.length_of_day(SHORT_DAY);
            }
            2 | 3 => self.refused_length_of_day(),
            4 => self.late_final_date(),
            _ => self.refused_final_date(),
        }
    }

    /// Near the level.
    pub fn hourly_value(&mut self) -> u32 {
        let dime = self.near_price() / 10 * 10;
        let value = dime + self.random.pick(&BESIDE_A_DIME);
        value.clamp(5_000, 50_000_000)
    }

    /// A fix with this set price, or a final date's own one in its place unless it is 0. Seldom one of the
    /// wrong kind comes first.
    pub fn fix(&mut self, set_price: u32) {
        let hourly = self.hourly_value();
        let is_final = self.contract == Contract::FinalDate;
        if is_final && set_price != 0 {
            if self.random.chance(10) {
                self.file.fix(set_price);
            }
            self.file.final_fix(hourly);
        } else {
            if self.random.chance(5) {
                self.file.final_fix(hourly);
            }
            self.file.fix(set_price);
        }
    }

    /// By either tag.
    pub fn any_fix(&mut self, price: u32) {
        match self.random.chance(60) {
            true => self.file.fix(price),
            false => self.file.final_fix(price),
        };
    }

    pub fn close(&mut self) {
        self.file.close();
        if self.contract == Contract::FinalDate {
            self.contract = Contract::Ended;
        }
    }

    /// A fix that should find a price, with trades before and after it, and the close.
    pub fn fix_and_close(&mut self) {
        if self.random.chance(20) {
            self.any_trade();
        }
        if self.random.chance(60) {
            self.fix(0);
        }
        let set_price = self.near_price();
        self.fix(set_price);
        if self.random.chance(40) {
            self.any_trade();
        }
        self.close();
    }
}

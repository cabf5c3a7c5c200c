//! The last date of the contract, and its end. What comes once in a contract is marked as cold: without
//! that a minute end without a market took 1.3 times as long, a trade 1.1 and a timed quote 1.15 times.

use super::{refused_if, Answer, Book, FINAL_DAY};
use crate::fridays::last_friday;
use crate::price::is_price;
use crate::settlement::to_dime;
use crate::trade::ACCOUNTS;
use reference::refusal::{DAY, FIELD, MONTH};

impl Book {
    /// Makes the date the last one of a month's contract. It gives the day of the month's last Friday, or
    /// the number of the refusal.
    #[cold]
    pub fn final_date(&mut self, year: u16, month: u8) -> Result<u8, u8> {
        refused_if(self.is_over() || self.day.has_begun(), DAY)?;
        let friday = last_friday(year, month).ok_or(MONTH)?;
        self.day.left = FINAL_DAY;
        self.day.begun = true;
        self.day.is_final = true;
        Ok(friday)
    }

    #[cold]
    pub fn final_fix(&mut self, hourly: u32) -> Answer {
        refused_if(!self.can_be_fixed() || !self.day.is_final, DAY)?;
        refused_if(!is_price(hourly), FIELD)?;
        self.settle(to_dime(hourly));
        Ok(())
    }

    /// The contract ends after its last close.
    #[cold]
    pub(super) fn end(&mut self) {
        self.opening = [0; ACCOUNTS];
        self.position = [0; ACCOUNTS];
        self.days_left = 0;
    }
}

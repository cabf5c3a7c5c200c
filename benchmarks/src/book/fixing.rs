//! The settlement price and the amount.

use super::{refused_if, Answer, Book};
use crate::price::is_price;
use crate::settlement::{amount, average, rate};
use reference::refusal::{DAY, FIELD, NO_PRICE};

impl Book {
    pub fn fix(&mut self, set_price: u32) -> Answer {
        refused_if(!self.can_be_fixed() || self.day.is_final, DAY)?;
        refused_if(set_price != 0 && !is_price(set_price), FIELD)?;
        let price = self.settlement_price(set_price).ok_or(NO_PRICE)?;
        self.settle(price);
        Ok(())
    }

    /// Whether the day's minutes have ended and it isn't fixed.
    pub(super) fn can_be_fixed(&self) -> bool {
        !self.is_over() && self.day.left == 0 && self.day.price == 0
    }

    pub(super) fn settle(&mut self, price: u32) {
        let rate = rate(self.day.valid, self.day.weighted);
        self.day.price = price;
        self.day.amount = amount(rate, price, self.size);
    }

    fn settlement_price(&self, set_price: u32) -> Option<u32> {
        if set_price != 0 {
            return Some(set_price);
        }
        let day = &self.day;
        average(day.gross, day.contracts)
            .or_else(|| day.midpoints.average())
            .or_else(|| self.index_price())
    }

    fn index_price(&self) -> Option<u32> {
        let (index, price, subtracted) = (self.day.index, self.previous_price, self.previous_index);
        let given = index != 0 && price != 0 && subtracted != 0;
        let sum = (index + price).checked_sub(subtracted)?;
        (given && is_price(sum)).then_some(sum)
    }
}

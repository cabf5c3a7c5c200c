//! A book that its calls change in place.

mod expiry;
mod fixing;
mod sets;

pub use sets::MOST_TRADES;

use crate::market::{Market, Midpoints, MINUTE};
use crate::price::is_price;
use crate::settlement::basis;
use crate::trade::{Trade, ACCOUNTS};
use dayformat::kind::SIMPLE;
use reference::refusal::{ACCOUNT, CROSSED, DAY, FIELD, HALT, POSITION, TIME, VOLUME};

/// The lengths of a day, in minutes.
pub const FULL_DAY: u32 = 1_320;
pub const SHORT_DAY: u32 = 1_140;
const FINAL_DAY: u32 = 1_020;
const MOST_DAYS: u32 = 2_600;
const MOST_VOLUME: u32 = 2_000_000;
const MOST_POSITION: i64 = 1_200_000;

/// Nothing, or the number of the refusal.
pub type Answer = Result<(), u8>;

#[derive(Clone, Copy, Default)]
struct Day {
    /// The minutes of its length that are still to end.
    left: u32,
    /// Set by a call after which a length is late, but for a minute end, which is seen by `left`.
    begun: bool,
    /// The last date of the contract.
    is_final: bool,
    valid: u32,
    weighted: i64,
    market: Market,
    minute: Market,
    /// The latest time given in the open minute.
    time: u32,
    last: u32,
    contracts: u32,
    gross: u64,
    midpoints: Midpoints,
    index: u32,
    price: u32,
    amount: i64,
}

pub struct Book {
    size: i64,
    /// The days that can still close: none once the contract has ended.
    days_left: u32,
    halted: bool,
    previous_price: u32,
    previous_index: u32,
    day: Day,
    opening: [i64; ACCOUNTS],
    pub position: [i64; ACCOUNTS],
    cost: [i64; ACCOUNTS],
    volume: [u32; ACCOUNTS],
    pub cash: [i64; ACCOUNTS],
}

fn refused_if(met: bool, number: u8) -> Answer {
    if met {
        Err(number)
    } else {
        Ok(())
    }
}

/// The tests of a trade that no book is looked at for.
#[inline(always)]
fn test_by_itself(trade: Trade) -> Answer {
    refused_if(!trade.is_in_field(), FIELD)?;
    refused_if(!trade.has_accounts(), ACCOUNT)
}

impl Day {
    fn new() -> Self {
        Day {
            left: FULL_DAY,
            ..Day::default()
        }
    }

    /// Whether a call has come after which the length is late.
    fn has_begun(&self) -> bool {
        self.begun || self.left != FULL_DAY
    }

    fn set_market(&mut self, market: Market) {
        self.begun = true;
        self.market = market;
        if market.is_two_sided() {
            self.minute = market;
        }
    }
}

impl Book {
    pub fn is_size(size: u8) -> bool {
        size == 1 || size == 10
    }

    /// A fresh book; the size is one of the two.
    #[inline]
    pub fn open(size: u8) -> Self {
        Book {
            size: size.into(),
            days_left: MOST_DAYS,
            halted: false,
            previous_price: 0,
            previous_index: 0,
            day: Day::new(),
            opening: [0; ACCOUNTS],
            position: [0; ACCOUNTS],
            cost: [0; ACCOUNTS],
            volume: [0; ACCOUNTS],
            cash: [0; ACCOUNTS],
        }
    }

    /// Whether no call is accepted any more.
    fn is_over(&self) -> bool {
        self.days_left == 0
    }

    pub fn set_length(&mut self, minutes: u16) -> Answer {
        refused_if(self.is_over() || self.day.has_begun(), DAY)?;
        let left = u32::from(minutes);
        refused_if(left != FULL_DAY && left != SHORT_DAY, FIELD)?;
        self.day.left = left;
        self.day.begun = true;
        Ok(())
    }

    #[inline]
    pub fn quote(&mut self, market: Market) -> Answer {
        refused_if(self.is_over(), DAY)?;
        refused_if(self.halted, HALT)?;
        refused_if(!market.is_in_field(), FIELD)?;
        refused_if(market.is_crossed(), CROSSED)?;
        self.day.set_market(market);
        Ok(())
    }

    /// The time is milliseconds into the minute.
    #[inline]
    pub fn timed_quote(&mut self, time: u16, market: Market) -> Answer {
        let time = u32::from(time);
        refused_if(self.is_over(), DAY)?;
        refused_if(self.halted, HALT)?;
        refused_if(time >= MINUTE || !market.is_in_field(), FIELD)?;
        refused_if(time < self.day.time, TIME)?;
        refused_if(market.is_crossed(), CROSSED)?;
        let day = &mut self.day;
        if day.left == 1 {
            day.midpoints.add(day.market, time - day.time);
        }
        day.time = time;
        day.set_market(market);
        Ok(())
    }

    /// Each caller has a copy: where both called one, a record of a traded day took 1.1 to 1.4 times as
    /// long.
    #[inline(always)]
    pub fn trade(&mut self, trade: Trade) -> Answer {
        refused_if(self.is_over(), DAY)?;
        refused_if(self.halted, HALT)?;
        test_by_itself(trade)?;
        let (buyer, seller) = trade.accounts();
        let quantity = i64::from(trade.quantity);
        let (counted, moved) = match buyer == seller {
            true => (2 * trade.quantity, 0),
            false => (trade.quantity, quantity),
        };
        let most_before = self.volume[buyer].max(self.volume[seller]);
        refused_if(most_before + counted > MOST_VOLUME, VOLUME)?;
        let (bought, sold) = (self.position[buyer] + moved, self.position[seller] - moved);
        refused_if(bought > MOST_POSITION || sold < -MOST_POSITION, POSITION)?;
        self.book(trade);
        Ok(())
    }

    /// What an accepted trade leaves.
    #[inline(always)]
    fn book(&mut self, trade: Trade) {
        let (buyer, seller) = trade.accounts();
        let quantity = i64::from(trade.quantity);
        let paid = quantity * i64::from(trade.price);
        self.position[buyer] += quantity;
        self.position[seller] -= quantity;
        self.cost[buyer] += paid;
        self.cost[seller] -= paid;
        self.volume[buyer] += trade.quantity;
        self.volume[seller] += trade.quantity;
        self.day.begun = true;
        if trade.kind == SIMPLE {
            self.day.last = trade.price;
            if self.day.left == 1 {
                self.day.contracts += trade.quantity;
                self.day.gross += paid as u64;
            }
        }
    }

    pub fn halt(&mut self) -> Answer {
        refused_if(self.is_over(), DAY)?;
        refused_if(self.halted, HALT)?;
        self.halted = true;
        self.day.begun = true;
        self.day.market = Market::default();
        self.day.minute = Market::default();
        Ok(())
    }

    pub fn resume(&mut self) -> Answer {
        refused_if(self.is_over(), DAY)?;
        refused_if(!self.halted, HALT)?;
        self.halted = false;
        self.day.begun = true;
        Ok(())
    }

    #[inline]
    pub fn minute_end(&mut self, index: u32) -> Answer {
        let over = self.day.left == 0 || self.day.price != 0;
        refused_if(self.is_over() || over, DAY)?;
        refused_if(index != 0 && !is_price(index), FIELD)?;
        let day = &mut self.day;
        if !self.halted && index != 0 && day.minute.is_valid() {
            day.valid += 1;
            let basis = basis(day.minute.futures_price(day.last), index);
            day.weighted += i64::from(day.valid) * basis;
        }
        day.left -= 1;
        day.minute = match day.market.is_two_sided() {
            true => day.market,
            false => Market::default(),
        };
        if day.left == 0 {
            day.index = index;
            day.midpoints.add(day.market, MINUTE - day.time);
        }
        day.time = 0;
        Ok(())
    }

    pub fn close(&mut self) -> Answer {
        refused_if(self.is_over() || self.day.price == 0, DAY)?;
        let size = self.size;
        let per_contract = i64::from(self.day.price) * size + self.day.amount * 100;
        let previous = i64::from(self.previous_price) * size;
        for account in 0..ACCOUNTS {
            let position = self.position[account];
            self.cash[account] += position * per_contract
                - self.opening[account] * previous
                - self.cost[account] * size;
            self.opening[account] = position;
        }
        self.cost = [0; ACCOUNTS];
        self.volume = [0; ACCOUNTS];
        self.previous_price = self.day.price;
        self.previous_index = self.day.index;
        self.days_left -= 1;
        if self.day.is_final {
            self.end();
        }
        self.day = Day::new();
        Ok(())
    }
}

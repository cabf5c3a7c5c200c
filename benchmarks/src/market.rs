//! A market, and the midpoints of the last minute by the time that each stood.

use crate::price::is_ticked;
use crate::settlement::average;

/// The milliseconds of a minute.
pub const MINUTE: u32 = 60_000;

#[derive(Clone, Copy, Default)]
pub struct Market {
    pub bid: u32,
    pub offer: u32,
}

impl Market {
    pub fn is_in_field(self) -> bool {
        let is_side = |side| side == 0 || is_ticked(side);
        is_side(self.bid) && is_side(self.offer)
    }

    pub fn is_two_sided(self) -> bool {
        self.bid != 0 && self.offer != 0
    }

    pub fn is_crossed(self) -> bool {
        self.is_two_sided() && self.bid >= self.offer
    }

    /// A two-sided market within the spread limit.
    pub fn is_valid(self) -> bool {
        let (bid, offer) = (u64::from(self.bid), u64::from(self.offer));
        self.is_two_sided() && 400 * (offer - bid) <= bid + offer
    }

    pub fn futures_price(self, last: u32) -> u32 {
        if self.bid <= last && last <= self.offer {
            last
        } else {
            self.midpoint()
        }
    }

    /// Both sides are multiples of 10, so that it is whole.
    fn midpoint(self) -> u32 {
        (self.bid + self.offer) / 2
    }
}

#[derive(Clone, Copy, Default)]
pub struct Midpoints {
    /// The milliseconds with a two-sided market.
    total: u32,
    /// Each midpoint times its milliseconds.
    sum: u64,
}

impl Midpoints {
    /// A market stood for so many milliseconds more.
    #[inline]
    pub fn add(&mut self, market: Market, milliseconds: u32) {
        if market.is_two_sided() {
            self.total += milliseconds;
            self.sum += u64::from(market.midpoint()) * u64::from(milliseconds);
        }
    }

    pub fn average(&self) -> Option<u32> {
        average(self.sum, self.total)
    }
}

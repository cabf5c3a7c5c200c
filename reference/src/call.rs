//! The calls of a trade date.

use std::iter::once;

/// 02-5: "Accounts become two-byte numbers."
pub type Account = u16;

#[derive(Clone, Copy, Debug, PartialEq, Eq)]
pub struct Trade {
    pub buyer: Account,
    pub seller: Account,
    pub kind: u8,
    pub quantity: u32,
    pub price: u32,
    /// Of its record: 1, 10, or that of a set. No rule of the documents goes by it.
    pub tag: u8,
}

impl Trade {
    pub fn is_with_oneself(self) -> bool {
        self.buyer == self.seller
    }

    /// Buyer and seller, one account once.
    pub fn accounts(self) -> impl Iterator<Item = Account> {
        let other = Some(self.seller).filter(|_| !self.is_with_oneself());
        once(self.buyer).chain(other)
    }

    /// The contracts that the account buys.
    pub fn bought(self, account: Account) -> i128 {
        i128::from(self.buyer == account) * i128::from(self.quantity)
    }

    /// The contracts that the account sells.
    pub fn sold(self, account: Account) -> i128 {
        i128::from(self.seller == account) * i128::from(self.quantity)
    }
}

/// The two sides of a market; 0 means no such side.
#[derive(Clone, Copy, Debug, PartialEq, Eq)]
pub struct Market {
    pub bid: u32,
    pub offer: u32,
}

impl Market {
    pub const NONE: Market = Market { bid: 0, offer: 0 };

    pub fn is_two_sided(self) -> bool {
        self.bid != 0 && self.offer != 0
    }

    /// Bid plus offer.
    pub fn sum(self) -> i128 {
        i128::from(self.bid) + i128::from(self.offer)
    }

    /// Offer minus bid.
    pub fn spread(self) -> i128 {
        i128::from(self.offer) - i128::from(self.bid)
    }
}

/// 02-4: a quote of tag 9.
#[derive(Clone, Copy, Debug, PartialEq, Eq)]
pub struct TimedQuote {
    /// Milliseconds into the minute.
    pub time: u16,
    pub market: Market,
}

/// 02-7: the month that a contract ends in.
#[derive(Clone, Copy, Debug, PartialEq, Eq)]
pub struct Month {
    pub year: u16,
    /// From 1, as a calendar counts them.
    pub month: u8,
}

#[derive(Clone, Copy, Debug, PartialEq, Eq)]
pub enum Call {
    Trade(Trade),
    Quote(Market),
    TimedQuote(TimedQuote),
    /// With the index, 0 for no sample.
    MinuteEnd(u32),
    Halt,
    Resume,
    /// With the set price, 0 for none.
    Fix(u32),
    Close,
    /// With the minutes.
    LengthOfDay(u16),
    FinalDate(Month),
    /// With the hourly index value.
    FinalFix(u32),
}

impl Call {
    /// The market of a quote, with a time or without.
    pub fn quoted(self) -> Option<Market> {
        match self {
            Call::Quote(market) => Some(market),
            Call::TimedQuote(quote) => Some(quote.market),
            _ => None,
        }
    }

    /// Whether it is a fix of any date.
    pub fn is_fix(self) -> bool {
        matches!(self, Call::Fix(_) | Call::FinalFix(_))
    }

    /// The time that a quote gives.
    pub fn time(self) -> Option<u16> {
        match self {
            Call::TimedQuote(quote) => Some(quote.time),
            _ => None,
        }
    }
}

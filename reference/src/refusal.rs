//! The refusals that a call can meet.

use crate::accounts::position;
use crate::call::{Account, Call, Market, Trade};
use crate::history::History;
use crate::rules::Rules;
use crate::settlement::settlement_price;
use dayformat::kind::BLOCK;

pub const FILE: u8 = 1;
pub const DAY: u8 = 3;
pub const HALT: u8 = 4;
pub const FIELD: u8 = 5;
pub const CROSSED: u8 = 6;
pub const VOLUME: u8 = 7;
pub const POSITION: u8 = 8;
pub const NO_PRICE: u8 = 9;
pub const TIME: u8 = 11;
pub const ACCOUNT: u8 = 12;
pub const SET_LENGTH: u8 = 13;
pub const MONTH: u8 = 14;

/// One step of the checking order.
#[derive(Clone, Copy, Debug, PartialEq, Eq)]
pub enum Check {
    Day,
    Halt,
    Month,
    Field,
    Time,
    Crossed,
    Account,
    BuyerVolume,
    SellerVolume,
    BuyerPosition,
    SellerPosition,
    NoPrice,
}

/// 7 is tested for both accounts before 8 for either; 02-4: 11 is "checked right after 5"; 02-5: 12 is
/// "checked just before 7"; 02-7: 14 is "checked after 4".
pub const CHECKING_ORDER: [Check; 12] = [
    Check::Day,
    Check::Halt,
    Check::Month,
    Check::Field,
    Check::Time,
    Check::Crossed,
    Check::Account,
    Check::BuyerVolume,
    Check::SellerVolume,
    Check::BuyerPosition,
    Check::SellerPosition,
    Check::NoPrice,
];

impl Check {
    pub fn number(self) -> u8 {
        match self {
            Check::Day => DAY,
            Check::Halt => HALT,
            Check::Month => MONTH,
            Check::Field => FIELD,
            Check::Time => TIME,
            Check::Crossed => CROSSED,
            Check::Account => ACCOUNT,
            Check::BuyerVolume | Check::SellerVolume => VOLUME,
            Check::BuyerPosition | Check::SellerPosition => POSITION,
            Check::NoPrice => NO_PRICE,
        }
    }
}

/// The first refusal in checking order whose sentence is met.
pub fn refusal(history: &History, call: Call, rules: Rules) -> Option<u8> {
    let asked = Asked {
        history,
        call,
        rules,
    };
    let mut order = rules.refusals.checking_order(call).iter();
    let first = order.find(|check| asked.meets(**check));
    first.map(|check| rules.refusals.number(*check))
}

/// 3: "any call on a book with 2,600 closed days".
pub fn is_full(history: &History, rules: Rules) -> bool {
    history.closed_days() >= rules.refusals.most_closed_days()
}

pub fn is_halted(history: &History, rules: Rules) -> bool {
    let (halts, today) = (&history.halts, history.closed_days());
    rules.calls.is_halted(halts, today)
}

/// 5: "kind above 2; quantity 0, above 100,000, or below 250 for kind 2; a price no price; [...] a kind 0
/// price not ticked".
pub fn trade_is_outside_field(trade: Trade, rules: Rules) -> bool {
    let price = trade.price.into();
    let priced = match rules.refusals.kind_is_ticked(trade.kind) {
        true => rules.calls.is_ticked_price(price),
        false => rules.calls.is_price(price),
    };
    let quantities = rules.refusals.quantities(trade.kind);
    trade.kind > BLOCK || !quantities.contains(&trade.quantity) || !priced
}

/// A call that isn't accepted yet.
struct Asked<'a> {
    history: &'a History,
    call: Call,
    rules: Rules,
}

impl Asked<'_> {
    fn meets(&self, check: Check) -> bool {
        match (check, &self.call) {
            (Check::Day, _) => self.day_forbids(),
            (Check::Halt, _) => self.halt_forbids(),
            (Check::Month, Call::FinalDate(month)) => !self.rules.expiry.is_in_table(*month),
            (Check::Field, _) => self.is_outside_field(),
            (Check::Time, Call::TimedQuote(quote)) => self.time_runs_back(quote.time),
            (Check::Crossed, call) => call
                .quoted()
                .is_some_and(|market| self.rules.refusals.is_crossed(market)),
            (Check::Account, Call::Trade(trade)) => self.rules.refusals.refuses_account(*trade),
            (Check::BuyerVolume, Call::Trade(trade)) => self.passes_volume(trade, trade.buyer),
            (Check::SellerVolume, Call::Trade(trade)) => self.passes_volume(trade, trade.seller),
            (Check::BuyerPosition, Call::Trade(trade)) => self.passes_position(trade, trade.buyer),
            (Check::SellerPosition, Call::Trade(trade)) => {
                self.passes_position(trade, trade.seller)
            }
            (Check::NoPrice, call) if call.is_fix() => self.has_no_price(),
            _ => false,
        }
    }

    /// "A close without a fix".
    fn day_forbids(&self) -> bool {
        let Rules {
            refusals, expiry, ..
        } = self.rules;
        let (history, day) = (self.history, self.history.open_day());
        let length = self.rules.calls.day_length(&history.days);
        let forbidden = match self.call {
            Call::MinuteEnd(_) => refusals.minute_end_is_late(day, length),
            Call::Fix(_) | Call::FinalFix(_) => {
                refusals.fix_is_early(day, length)
                    || refusals.fix_is_second(day, self.call)
                    || expiry.fix_is_of_wrong_kind(day, self.call)
            }
            Call::Close => !day.is_fixed(),
            Call::LengthOfDay(_) => refusals.length_of_day_is_late(history),
            Call::FinalDate(_) => expiry.final_date_is_late(history, refusals),
            Call::Trade(_) | Call::Quote(_) | Call::TimedQuote(_) => false,
            Call::Halt | Call::Resume => false,
        };
        forbidden || is_full(history, self.rules) || expiry.end_forbids(history, self.call)
    }

    fn halt_forbids(&self) -> bool {
        let halted = is_halted(self.history, self.rules);
        self.rules.refusals.halt_forbids(self.call, halted)
    }

    /// "A nonzero quote side not ticked; an index or set price neither 0 nor a price"; 02-1: "Any other
    /// length is refused by 5"; 02-4: "A time above 59,999 is refused by 5"; 02-7: "an hourly value that is
    /// no price is 5".
    fn is_outside_field(&self) -> bool {
        let calls = self.rules.calls;
        match self.call {
            Call::Trade(trade) => trade_is_outside_field(trade, self.rules),
            Call::Quote(market) => self.market_is_outside_field(market),
            Call::TimedQuote(quote) => {
                !self.rules.refusals.is_time(quote.time)
                    || self.market_is_outside_field(quote.market)
            }
            Call::MinuteEnd(value) | Call::Fix(value) => {
                value != 0 && !calls.is_price(value.into())
            }
            Call::LengthOfDay(minutes) => !calls.is_length(minutes),
            Call::FinalFix(value) => !self.rules.expiry.is_hourly_value(value, calls),
            Call::FinalDate(_) | Call::Halt | Call::Resume | Call::Close => false,
        }
    }

    fn market_is_outside_field(&self, market: Market) -> bool {
        let is_ticked_price = |side: u32| self.rules.calls.is_ticked_price(side.into());
        let mut sides = [market.bid, market.offer].into_iter();
        sides.any(|side| side != 0 && !is_ticked_price(side))
    }

    fn time_runs_back(&self, time: u16) -> bool {
        let (days, place) = (&self.history.days, self.history.open_day().calls.len());
        let latest = self.rules.midpoints.latest_time(days, place);
        self.rules.refusals.time_runs_back(time, latest)
    }

    fn passes_volume(&self, trade: &Trade, account: Account) -> bool {
        let present = self.rules.calls.volume(self.history, account);
        let after = present + self.rules.calls.contracts(*trade, account);
        after > self.rules.refusals.volume_limit(account)
    }

    fn passes_position(&self, trade: &Trade, account: Account) -> bool {
        let days = self.history.days.len();
        let present = position(self.history, account, days, self.rules);
        let after = present + self.rules.calls.signed_quantity(*trade, account);
        after.abs() > self.rules.refusals.position_limit(account)
    }

    fn has_no_price(&self) -> bool {
        let today = self.history.closed_days();
        settlement_price(self.history, today, self.call, self.rules).is_none()
    }
}

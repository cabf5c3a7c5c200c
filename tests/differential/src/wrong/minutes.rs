//! Wrong markets and halts, minutes, rates and amounts.

use dayformat::kind::{BLOCK, SIMPLE, SPREAD};
use reference::call::{Call, Market, Trade};
use reference::fraction::Fraction;
use reference::history::{Day, HaltOrResume};
use reference::minutes::{Minute, Start, ValidMinute};
use reference::rules::{CallRules, RightLedger};
use reference::terms::{Terms, NANO};

pub struct ClockMinuteWeights;

impl CallRules for ClockMinuteWeights {
    fn weight(&self, _i: usize, minute: &ValidMinute) -> i128 {
        minute.number as i128
    }
}

pub struct InvalidMinutesInCount;

impl CallRules for InvalidMinutesInCount {
    fn minute_basis(&self, minute: &Minute, terms: Terms) -> Option<Fraction> {
        let basis = RightLedger.minute_basis(minute, terms);
        Some(basis.unwrap_or(Fraction::whole(0)))
    }
}

pub struct OppositeAmountSign;

impl CallRules for OppositeAmountSign {
    fn amount(&self, clamped_rate: Fraction, price: i128, size: u8) -> i128 {
        RightLedger.amount(clamped_rate.times(-1), price, size)
    }
}

pub struct NoClamp;

impl CallRules for NoClamp {
    fn terms(&self, day: usize) -> Terms {
        Terms {
            // No basis is as far from zero.
            clamp: 10_000 * NANO,
            ..RightLedger.terms(day)
        }
    }
}

pub struct StrictSpread;

impl CallRules for StrictSpread {
    fn spread_is_valid(&self, market: Market, terms: Terms) -> bool {
        terms.spread_factor * market.spread() < market.sum()
    }
}

pub struct LastAtSideOutside;

impl CallRules for LastAtSideOutside {
    fn futures_price(&self, market: Market, last: Option<u32>) -> i128 {
        let at_no_side = last.filter(|price| *price != market.bid && *price != market.offer);
        RightLedger.futures_price(market, at_no_side)
    }
}

/// Simple trades and those of one more kind set the last price.
pub struct LastOfKind(u8);

pub const LAST_OF_SPREAD_TRADES: LastOfKind = LastOfKind(SPREAD);
pub const LAST_OF_BLOCKS: LastOfKind = LastOfKind(BLOCK);

impl CallRules for LastOfKind {
    fn sets_last(&self, trade: Trade) -> bool {
        trade.kind == SIMPLE || trade.kind == self.0
    }
}

/// The trades among these calls, of every kind.
fn trades(calls: &[Call]) -> impl DoubleEndedIterator<Item = Trade> + '_ {
    calls.iter().filter_map(|call| match call {
        Call::Trade(trade) => Some(*trade),
        _ => None,
    })
}

/// A block or a spread trade leaves no last price.
pub struct OtherKindsClearLast;

impl CallRules for OtherKindsClearLast {
    fn last_trade(&self, at_start: Option<u32>, calls: &[Call]) -> Option<u32> {
        match trades(calls).next_back() {
            Some(trade) => (trade.kind == SIMPLE).then_some(trade.price),
            None => at_start,
        }
    }
}

/// A block or a spread trade sets the last price where there was none today.
pub struct OtherKindsSetFirstLast;

impl CallRules for OtherKindsSetFirstLast {
    fn last_trade(&self, at_start: Option<u32>, calls: &[Call]) -> Option<u32> {
        let first = || trades(calls).next().map(|trade| trade.price);
        RightLedger.last_trade(at_start, calls).or_else(first)
    }
}

/// A simple trade sets the last price of its own minute alone.
pub struct LastOfTheMinuteOnly;

impl CallRules for LastOfTheMinuteOnly {
    fn last_trade(&self, _at_start: Option<u32>, calls: &[Call]) -> Option<u32> {
        RightLedger.last_trade(None, calls)
    }
}

pub struct CloseKeepsLast;

impl CallRules for CloseKeepsLast {
    fn start_of_day(&self, earlier: &[Day]) -> Start {
        let kept = |last, day: &Day| self.last_trade(last, &day.calls);
        Start {
            last: earlier.iter().fold(None, kept),
            ..RightLedger.start_of_day(earlier)
        }
    }
}

pub struct CloseKeepsMarket;

impl CallRules for CloseKeepsMarket {
    fn start_of_day(&self, earlier: &[Day]) -> Start {
        let kept = |market, day: &Day| self.next_minute_market(market, &day.calls);
        Start {
            market: earlier.iter().fold(None, kept),
            ..RightLedger.start_of_day(earlier)
        }
    }
}

pub struct OneSidedServesNextMinute;

impl CallRules for OneSidedServesNextMinute {
    fn next_minute_market(&self, at_start: Option<Market>, calls: &[Call]) -> Option<Market> {
        self.minute_market(at_start, calls)
    }
}

pub struct OneSidedEndsMinuteMarket;

impl CallRules for OneSidedEndsMinuteMarket {
    fn minute_market(&self, at_start: Option<Market>, calls: &[Call]) -> Option<Market> {
        self.next_minute_market(at_start, calls)
    }
}

pub struct WideQuoteIgnored;

impl CallRules for WideQuoteIgnored {
    fn minute_market(&self, at_start: Option<Market>, calls: &[Call]) -> Option<Market> {
        let is_wide = |call: &Call| {
            let quoted = call.quoted();
            quoted.is_some_and(|market| !self.spread_is_valid(market, self.terms(0)))
        };
        let calls: Vec<Call> = calls
            .iter()
            .copied()
            .filter(|call| !is_wide(call))
            .collect();
        RightLedger.minute_market(at_start, &calls)
    }
}

pub struct HaltKeepsMinuteMarket;

impl CallRules for HaltKeepsMinuteMarket {
    fn minute_market(&self, at_start: Option<Market>, calls: &[Call]) -> Option<Market> {
        let calls: Vec<Call> = calls
            .iter()
            .copied()
            .filter(|call| *call != Call::Halt)
            .collect();
        RightLedger.minute_market(at_start, &calls)
    }
}

pub struct ResumeRestoresMarket;

impl CallRules for ResumeRestoresMarket {
    fn resumed_market(&self, earlier: &[Call]) -> Market {
        let quoted = earlier.iter().rev().find_map(|call| call.quoted());
        quoted.unwrap_or(Market::NONE)
    }
}

pub struct CloseDropsHalt;

impl CallRules for CloseDropsHalt {
    fn is_halted(&self, so_far: &[HaltOrResume], today: usize) -> bool {
        so_far
            .last()
            .is_some_and(|last| last.is_halt && last.day == today)
    }
}

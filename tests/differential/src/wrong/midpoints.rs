//! Wrong midpoints: where their step stands, which markets weigh, and by which milliseconds.

use reference::call::{Call, Market};
use reference::fraction::Fraction;
use reference::history::Day;
use reference::midpoints::{last_day, standings, Standing};
use reference::rules::{CallRules, MidpointRules, RightLedger};
use reference::settlement::PriceRule::{self, Index, Midpoints, SetPrice, Trades};
use reference::terms::{END_OF_MINUTE, FULL_DAY};

/// The steps to a settlement price, in this order.
pub struct Steps(&'static [PriceRule]);

impl CallRules for Steps {
    fn price_rules(&self) -> &'static [PriceRule] {
        self.0
    }
}

pub static MIDPOINTS_BEFORE_SET_PRICE: Steps = Steps(&[Midpoints, SetPrice, Trades, Index]);
pub static MIDPOINTS_BEFORE_TRADES: Steps = Steps(&[SetPrice, Midpoints, Trades, Index]);
pub static INDEX_BEFORE_MIDPOINTS: Steps = Steps(&[SetPrice, Trades, Index, Midpoints]);
pub static MIDPOINTS_LEFT_OUT: Steps = Steps(&[SetPrice, Trades, Index]);

/// It rounds the average so.
pub struct Average(fn(Fraction) -> i128);

impl CallRules for Average {
    fn average_midpoint(&self, exact: Fraction) -> i128 {
        self.0(exact)
    }
}

pub static AVERAGE_DOWN: Average = Average(Fraction::floor);
pub static AVERAGE_TIE_UP: Average = Average(|exact| exact.plus(Fraction::new(1, 2)).floor());
pub static AVERAGE_TO_TICK: Average =
    Average(|exact| 10 * RightLedger.half_even(exact.divided_by(10)));

/// The market that a call in the last minute leaves.
pub struct MarketAfter(fn(Call) -> Option<Market>);

impl MidpointRules for MarketAfter {
    fn market_after(&self, call: Call) -> Option<Market> {
        self.0(call)
    }

    fn market_at_start(&self, earlier: &[Call]) -> Market {
        RightLedger.market_at_start(earlier)
    }
}

pub static MINUTE_MARKET_WEIGHED: MarketAfter = MarketAfter(|call| {
    let market = RightLedger.market_after(call);
    market.filter(|market| call == Call::Halt || market.is_two_sided())
});
pub static WEIGHED_THROUGH_HALT: MarketAfter = MarketAfter(Call::quoted);
pub static TIMED_QUOTE_NOT_WEIGHED: MarketAfter = MarketAfter(|call| match call {
    Call::TimedQuote(_) => None,
    _ => RightLedger.market_after(call),
});
pub static TIMED_QUOTE_ALONE_WEIGHED: MarketAfter = MarketAfter(|call| match call {
    Call::Quote(_) => None,
    _ => RightLedger.market_after(call),
});

/// Its midpoint of a market with one side.
pub struct OneSideWeighed(fn(Market) -> Fraction);

impl MidpointRules for OneSideWeighed {
    fn weighs(&self, market: Market) -> bool {
        market != Market::NONE
    }

    fn midpoint(&self, market: Market) -> Fraction {
        match market.is_two_sided() {
            true => RightLedger.midpoint(market),
            false => self.0(market),
        }
    }
}

pub static ONE_SIDE_WEIGHED: OneSideWeighed =
    OneSideWeighed(|market| Fraction::whole(market.sum()));
pub static HALF_OF_ONE_SIDE_WEIGHED: OneSideWeighed =
    OneSideWeighed(|market| RightLedger.midpoint(market));

pub struct SpreadLimitOnMidpoints;

impl MidpointRules for SpreadLimitOnMidpoints {
    fn weighs(&self, market: Market) -> bool {
        market.is_two_sided() && RightLedger.spread_is_valid(market, RightLedger.terms(0))
    }
}

pub struct MidpointsNotWeighted;

impl MidpointRules for MidpointsNotWeighted {
    fn milliseconds(&self, from: u16, until: u16) -> i128 {
        i128::from(from < until)
    }
}

/// Document 000 needs a market for half of the minute.
pub struct HalfMinuteNeeded;

impl MidpointRules for HalfMinuteNeeded {
    fn is_enough(&self, total: i128) -> bool {
        total >= i128::from(END_OF_MINUTE / 2)
    }
}

pub struct MarketAtStartNotWeighed;

impl MidpointRules for MarketAtStartNotWeighed {
    fn market_at_start(&self, _earlier: &[Call]) -> Market {
        Market::NONE
    }
}

/// The market at the start counts from the latest time of the minute before.
pub struct StartFromMinuteBefore;

impl MidpointRules for StartFromMinuteBefore {
    fn minute_start(&self, days: &[Day], place: usize) -> u16 {
        self.latest_time(days, place - 1)
    }

    fn milliseconds(&self, from: u16, until: u16) -> i128 {
        RightLedger.milliseconds(from, until).max(0)
    }
}

/// A quote of tag 2 or a halt counts at the latest time of an earlier minute, its own having none.
pub struct UntimedFromMinuteBefore;

impl MidpointRules for UntimedFromMinuteBefore {
    fn came_at(&self, days: &[Day], place: usize) -> u16 {
        let calls = last_day(days).calls[..=place].iter();
        calls.rev().find_map(|call| call.time()).unwrap_or(0)
    }

    fn milliseconds(&self, from: u16, until: u16) -> i128 {
        RightLedger.milliseconds(from, until).max(0)
    }
}

/// A quote of tag 2 counts from the start of the minute, though the market before it had its time.
pub struct UntimedQuoteFromStart;

impl MidpointRules for UntimedQuoteFromStart {
    fn from(&self, days: &[Day], place: usize) -> u16 {
        match last_day(days).calls[place] {
            Call::Quote(_) => 0,
            _ => RightLedger.from(days, place),
        }
    }
}

/// The market that a one-sided quote ends loses its time.
pub struct TimeLostAtOneSidedQuote;

impl MidpointRules for TimeLostAtOneSidedQuote {
    fn until(&self, days: &[Day], place: usize) -> u16 {
        let quoted = last_day(days).calls[place].quoted();
        match quoted.is_some_and(|market| !market.is_two_sided()) {
            true => 0,
            false => RightLedger.until(days, place),
        }
    }

    fn milliseconds(&self, from: u16, until: u16) -> i128 {
        RightLedger.milliseconds(from, until).max(0)
    }
}

/// The last market stands until the latest time.
pub struct EndOfMinuteNotAdded;

impl MidpointRules for EndOfMinuteNotAdded {
    fn until(&self, days: &[Day], place: usize) -> u16 {
        self.came_at(days, place)
    }
}

pub struct EndOfMinuteOneLess;

impl MidpointRules for EndOfMinuteOneLess {
    fn until(&self, days: &[Day], place: usize) -> u16 {
        let until = RightLedger.until(days, place);
        until - u16::from(until == END_OF_MINUTE)
    }
}

/// A new market weighs by the time until it came.
pub struct NextMarketWeighed;

impl MidpointRules for NextMarketWeighed {
    fn last_minute(&self, days: &[Day], length: usize) -> Vec<Standing> {
        let mut standings = RightLedger.last_minute(days, length);
        for place in 1..standings.len() {
            standings[place - 1].market = standings[place].market;
        }
        standings
    }
}

/// Without a timed quote in the last minute it has no market.
pub struct TimedQuoteNeeded;

impl MidpointRules for TimedQuoteNeeded {
    fn last_minute(&self, days: &[Day], length: usize) -> Vec<Standing> {
        let calls = last_day(days).calls_of_minute(length);
        match calls.iter().any(|call| call.time().is_some()) {
            true => RightLedger.last_minute(days, length),
            false => Vec::new(),
        }
    }
}

/// The last minute's markets count from its first timed quote on.
pub struct WeighedFromTimedQuote;

impl MidpointRules for WeighedFromTimedQuote {
    fn minute_start(&self, days: &[Day], place: usize) -> u16 {
        let later = &last_day(days).calls[place..];
        later.iter().find_map(|call| call.time()).unwrap_or(0)
    }

    fn milliseconds(&self, from: u16, until: u16) -> i128 {
        RightLedger.milliseconds(from, until).max(0)
    }
}

/// Its last minute is this one, by the day's length.
pub struct LastMinute(fn(usize) -> usize);

impl MidpointRules for LastMinute {
    fn last_minute(&self, days: &[Day], length: usize) -> Vec<Standing> {
        RightLedger.last_minute(days, self.0(length))
    }
}

pub static MIDPOINTS_OF_MINUTE_1320: LastMinute = LastMinute(|_| FULL_DAY.into());
pub static MIDPOINTS_OF_MINUTE_BEFORE: LastMinute = LastMinute(|length| length - 1);

/// The times after the last minute end add up to the fix.
pub struct TimeAfterLastMinuteEnd;

impl MidpointRules for TimeAfterLastMinuteEnd {
    fn last_minute(&self, days: &[Day], length: usize) -> Vec<Standing> {
        let day = last_day(days);
        let mut all = RightLedger.last_minute(days, length);
        if day.ended_minutes() >= length {
            let fix = day.fix.unwrap_or(day.calls.len());
            all.extend(standings(days, day.place_after_minute(length)..fix, self));
        }
        all
    }

    fn until(&self, days: &[Day], place: usize) -> u16 {
        match last_day(days).calls.get(place) {
            Some(Call::TimedQuote(quote)) => quote.time,
            _ => self.latest_time(days, place),
        }
    }
}

pub struct CloseKeepsWeights;

impl MidpointRules for CloseKeepsWeights {
    fn last_minute(&self, days: &[Day], _length: usize) -> Vec<Standing> {
        let counts = 1..=days.len();
        counts
            .flat_map(|count| {
                let days = &days[..count];
                RightLedger.last_minute(days, RightLedger.day_length(days))
            })
            .collect()
    }
}

//! Which minutes of a day are valid, and the basis of each.

use crate::call::{Call, Market};
use crate::fraction::Fraction;
use crate::history::{Day, History};
use crate::rules::CallRules;

/// What a minute takes over from the calls before it.
#[derive(Clone, Copy, Debug, Default, PartialEq, Eq)]
pub struct Start {
    /// A two-sided one.
    pub market: Option<Market>,
    pub last: Option<u32>,
}

/// What a minute end finds.
#[derive(Clone, Copy, Debug, PartialEq, Eq)]
pub struct Minute {
    pub market: Option<Market>,
    pub last: Option<u32>,
    /// 0 for no sample.
    pub index: u32,
    pub halted: bool,
}

#[derive(Clone, Copy, Debug, PartialEq, Eq)]
pub struct ValidMinute {
    /// By the clock, from 1.
    pub number: usize,
    /// In nano.
    pub basis: Fraction,
}

/// The valid ones of a day's ended minutes.
pub fn valid_minutes(history: &History, day: usize, rules: &dyn CallRules) -> Vec<ValidMinute> {
    let list = &history.days[day];
    let terms = rules.terms(day);
    let calls = calls_on_market(list, rules);
    let mut start = rules.start_of_day(&history.days[..day]);
    let mut valid = Vec::new();
    for number in 1..=list.ended_minutes() {
        let places = list.places_of_minute(number);
        let halts = history.halts_before(day, places.end);
        let calls = &calls[places];
        let minute = Minute {
            market: rules.minute_market(start.market, calls),
            last: rules.last_trade(start.last, calls),
            index: list.index(number),
            halted: rules.is_halted(halts, day),
        };
        let basis = rules.minute_basis(&minute, terms);
        valid.extend(basis.map(|basis| ValidMinute { number, basis }));
        start = Start {
            market: rules.next_minute_market(start.market, calls),
            last: minute.last,
        };
    }
    valid
}

/// The day's calls, where a resume stands as a quote of the market that it leaves.
fn calls_on_market(day: &Day, rules: &dyn CallRules) -> Vec<Call> {
    let stands_as = |place: usize| match day.calls[place] {
        Call::Resume => Call::Quote(rules.resumed_market(&day.calls[..place])),
        call => call,
    };
    (0..day.calls.len()).map(stands_as).collect()
}

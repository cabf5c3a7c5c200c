//! The last minute's markets, and the average of their midpoints over time.

use crate::call::Market;
use crate::fraction::Fraction;
use crate::history::Day;
use crate::rules::{MidpointRules, Rules};
use std::iter::once;
use std::ops::Range;

/// A market with the milliseconds that it stood.
#[derive(Clone, Copy, Debug, PartialEq, Eq)]
pub struct Standing {
    /// With one side, or none after a halt, it has no midpoint.
    pub market: Market,
    pub milliseconds: i128,
}

/// 02-4: "The sum over the total, half-even, is the settlement price", for the last of the days.
pub fn midpoint_price(days: &[Day], rules: Rules) -> Option<i128> {
    let length = rules.calls.day_length(days);
    let mut weighed = rules.midpoints.last_minute(days, length);
    weighed.retain(|standing| rules.midpoints.weighs(standing.market));
    let total = weighed.iter().map(|standing| standing.milliseconds).sum();
    let sum = weighed.iter().map(|standing| {
        let midpoint = rules.midpoints.midpoint(standing.market);
        midpoint.times(standing.milliseconds)
    });
    let sum = sum.fold(Fraction::whole(0), Fraction::plus);
    let enough = rules.midpoints.is_enough(total);
    enough.then(|| rules.calls.average_midpoint(sum.divided_by(total)))
}

pub fn last_day(days: &[Day]) -> &Day {
    days.last().expect("rules are asked about a day")
}

/// The markets that stood from the start of these places among the last day's calls up to their end,
/// in order.
pub fn standings<R: MidpointRules + ?Sized>(
    days: &[Day],
    places: Range<usize>,
    rules: &R,
) -> Vec<Standing> {
    let day = last_day(days);
    let at_start = rules.market_at_start(&day.calls[..places.start]);
    let left_by = |place: usize| Some((place, rules.market_after(day.calls[place])?));
    let changes: Vec<(usize, Market)> = places.clone().filter_map(left_by).collect();
    let start = once((rules.minute_start(days, places.start), at_start));
    let later = changes
        .iter()
        .map(|(place, market)| (rules.from(days, *place), *market));
    let ends = changes.iter().map(|(place, _)| *place);
    let standing = |((from, market), end)| Standing {
        market,
        milliseconds: rules.milliseconds(from, rules.until(days, end)),
    };
    start
        .chain(later)
        .zip(ends.chain(once(places.end)))
        .map(standing)
        .collect()
}

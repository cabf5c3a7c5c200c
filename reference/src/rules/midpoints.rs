//! Times of quotes, and midpoints over the last minute. All sentences are of 02-4, unless marked.

use crate::call::{Call, Market};
use crate::fraction::Fraction;
use crate::history::Day;
use crate::midpoints::{last_day, standings, Standing};
use crate::terms::END_OF_MINUTE;

/// A rule that takes a list of days is asked about the last of them; a place is one among its calls.
pub trait MidpointRules: Sync {
    /// "The latest time given in that minute, 0 if none"; "each minute end and close sets that time to
    /// 0": of the minute that a place lies in, before that place.
    fn latest_time(&self, days: &[Day], place: usize) -> u16 {
        let minute = last_day(days).minute_before(place).iter();
        let times = minute.filter_map(|call| call.time());
        times.max().unwrap_or(0)
    }

    /// When a call came: "A tag 2 quote or a halt counts at the latest time given in that minute".
    fn came_at(&self, days: &[Day], place: usize) -> u16 {
        let own = last_day(days).calls[place].time();
        own.unwrap_or_else(|| self.latest_time(days, place))
    }

    /// "From minute start": for the market that stood at the start of a minute, by the minute's first
    /// place.
    fn minute_start(&self, _days: &[Day], _place: usize) -> u16 {
        0
    }

    /// "Or its own time": for the market that stands from a call on.
    fn from(&self, days: &[Day], place: usize) -> u16 {
        self.came_at(days, place)
    }

    /// "Until replaced, removed or 60,000": for the market that stood until a call.
    fn until(&self, days: &[Day], place: usize) -> u16 {
        match last_day(days).calls[place] {
            Call::MinuteEnd(_) => END_OF_MINUTE,
            _ => self.came_at(days, place),
        }
    }

    /// The market that a call leaves, none when it leaves the one before it. 01: a quote "becomes the
    /// market", "a halt removes the market", "resuming restores neither".
    fn market_after(&self, call: Call) -> Option<Market> {
        match call {
            Call::Halt => Some(Market::NONE),
            _ => call.quoted(),
        }
    }

    /// The market at the start of the last minute, by the day's calls before it.
    fn market_at_start(&self, earlier: &[Call]) -> Market {
        let mut left = earlier.iter().rev();
        let last = left.find_map(|call| self.market_after(*call));
        last.unwrap_or(Market::NONE)
    }

    /// "Over the last minute", which is the day's own; "nothing after the last minute end adds time".
    fn last_minute(&self, days: &[Day], length: usize) -> Vec<Standing> {
        let day = last_day(days);
        match day.ended_minutes() >= length {
            true => standings(days, day.places_of_minute(length), self),
            false => Vec::new(),
        }
    }

    /// "Each two-sided market weighs".
    fn weighs(&self, market: Market) -> bool {
        market.is_two_sided()
    }

    /// "Its midpoint".
    fn midpoint(&self, market: Market) -> Fraction {
        Fraction::new(market.sum(), 2)
    }

    /// "By the milliseconds it stood."
    fn milliseconds(&self, from: u16, until: u16) -> i128 {
        i128::from(until) - i128::from(from)
    }

    /// "If the total is at least 1."
    fn is_enough(&self, total: i128) -> bool {
        total >= 1
    }
}

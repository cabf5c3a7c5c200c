//! Wrong times of quotes: which is the latest one, and which are refused.

use crate::wrong::refusals::{moved, CheckMoved};
use reference::call::{Call, Market};
use reference::file::Record;
use reference::history::Day;
use reference::midpoints::last_day;
use reference::refusal::{Check, CHECKING_ORDER};
use reference::rules::{CallRules, MidpointRules, RefusalRules, RightLedger};
use reference::terms::LATEST_TIME;

fn latest_of(calls: &[Call]) -> u16 {
    let times = calls.iter().filter_map(|call| call.time());
    times.max().unwrap_or(0)
}

/// Without a time in its own minute a call has the latest one of the day.
pub struct MinuteEndKeepsTime;

impl MidpointRules for MinuteEndKeepsTime {
    fn latest_time(&self, days: &[Day], place: usize) -> u16 {
        let mut times = last_day(days).calls[..place].iter().rev();
        times.find_map(|call| call.time()).unwrap_or(0)
    }
}

/// The time after the last minute end stays for the next day's first minute.
pub struct CloseKeepsTime;

impl MidpointRules for CloseKeepsTime {
    fn latest_time(&self, days: &[Day], place: usize) -> u16 {
        let day = last_day(days);
        let own = RightLedger.latest_time(days, place);
        let earlier = &days[..days.len() - 1];
        match day.minute_ends.first().is_some_and(|end| *end < place) || earlier.is_empty() {
            true => own,
            false => own.max(self.latest_time(earlier, last_day(earlier).calls.len())),
        }
    }
}

/// Such a call sets the time to 0 too.
pub struct TimeResetBy(pub fn(&Call) -> bool);

impl MidpointRules for TimeResetBy {
    fn latest_time(&self, days: &[Day], place: usize) -> u16 {
        let minute = last_day(days).minute_before(place);
        let after = minute.iter().rposition(self.0).map_or(0, |at| at + 1);
        latest_of(&minute[after..])
    }
}

pub static TIME_RESET_BY_HALT: TimeResetBy = TimeResetBy(|call| *call == Call::Halt);
pub static TIME_RESET_BY_RESUME: TimeResetBy = TimeResetBy(|call| *call == Call::Resume);
pub static TIME_RESET_BY_UNTIMED_QUOTE: TimeResetBy =
    TimeResetBy(|call| matches!(call, Call::Quote(_)));
pub static TIME_RESET_BY_FIX: TimeResetBy = TimeResetBy(|call| matches!(call, Call::Fix(_)));

/// A refused quote with a time of the field gives it.
pub struct RefusedQuoteGivesTime;

impl MidpointRules for RefusedQuoteGivesTime {
    fn latest_time(&self, days: &[Day], place: usize) -> u16 {
        let day = last_day(days);
        let start = place - day.minute_before(place).len();
        let in_minute = day
            .not_accepted
            .iter()
            .filter(|refused| (start..=place).contains(&refused.place));
        let times = in_minute.filter_map(|refused| match refused.record {
            Record::Call(call) => call.time().filter(|time| *time <= LATEST_TIME),
            _ => None,
        });
        let refused = times.max().unwrap_or(0);
        refused.max(RightLedger.latest_time(days, place))
    }
}

/// It keeps the time in minutes of these numbers alone, by the day's length.
pub struct TimeKeptIn(fn(usize, usize) -> bool);

impl MidpointRules for TimeKeptIn {
    fn latest_time(&self, days: &[Day], place: usize) -> u16 {
        let ended = last_day(days).minute_ends.iter();
        let minute = 1 + ended.filter(|end| **end < place).count();
        match self.0(minute, RightLedger.day_length(days)) {
            true => RightLedger.latest_time(days, place),
            false => 0,
        }
    }
}

pub static TIME_IN_LAST_MINUTE_ONLY: TimeKeptIn = TimeKeptIn(|minute, length| minute == length);
pub static TIME_FROM_LAST_MINUTE_ON: TimeKeptIn = TimeKeptIn(|minute, length| minute >= length);
pub static TIME_UP_TO_LAST_MINUTE: TimeKeptIn = TimeKeptIn(|minute, length| minute <= length);

/// Its times are up to this one.
pub struct TimesUpTo(u16);

impl RefusalRules for TimesUpTo {
    fn is_time(&self, time: u16) -> bool {
        time <= self.0
    }
}

pub static TIME_LIMIT_ONE_LESS: TimesUpTo = TimesUpTo(LATEST_TIME - 1);
pub static TIME_LIMIT_ONE_MORE: TimesUpTo = TimesUpTo(LATEST_TIME + 1);
pub static ANY_TIME_ACCEPTED: TimesUpTo = TimesUpTo(u16::MAX);

pub struct EqualTimesRefused;

impl RefusalRules for EqualTimesRefused {
    fn time_runs_back(&self, time: u16, latest: u16) -> bool {
        latest != 0 && time <= latest
    }
}

pub struct OneMillisecondBackAccepted;

impl RefusalRules for OneMillisecondBackAccepted {
    fn time_runs_back(&self, time: u16, latest: u16) -> bool {
        time + 1 < latest
    }
}

pub static TIME_BEFORE_FIELD: CheckMoved =
    CheckMoved(&moved(CHECKING_ORDER, Check::Time, Check::Field));
pub static TIME_BEFORE_HALT: CheckMoved =
    CheckMoved(&moved(CHECKING_ORDER, Check::Time, Check::Halt));
pub static CROSSED_BEFORE_TIME: CheckMoved =
    CheckMoved(&moved(CHECKING_ORDER, Check::Crossed, Check::Time));

pub struct TimedQuoteAcceptedInHalt;

impl RefusalRules for TimedQuoteAcceptedInHalt {
    fn halt_forbids(&self, call: Call, halted: bool) -> bool {
        call.time().is_none() && RightLedger.halt_forbids(call, halted)
    }
}

fn without_timed_quotes(calls: &[Call]) -> Vec<Call> {
    let others = calls.iter().filter(|call| call.time().is_none());
    others.copied().collect()
}

pub struct TimedQuoteNotMinuteMarket;

impl CallRules for TimedQuoteNotMinuteMarket {
    fn minute_market(&self, at_start: Option<Market>, calls: &[Call]) -> Option<Market> {
        RightLedger.minute_market(at_start, &without_timed_quotes(calls))
    }
}

pub struct TimedQuoteNotNextMinuteMarket;

impl CallRules for TimedQuoteNotNextMinuteMarket {
    fn next_minute_market(&self, at_start: Option<Market>, calls: &[Call]) -> Option<Market> {
        RightLedger.next_minute_market(at_start, &without_timed_quotes(calls))
    }
}

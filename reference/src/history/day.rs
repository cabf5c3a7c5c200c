//! One day's accepted calls, beside its records that weren't accepted.

use crate::call::Call;
use crate::file::Record;
use crate::terms::FINAL_DAY;
use std::ops::Range;

/// The accepted calls of one day, in order.
#[derive(Clone, Debug, Default)]
pub struct Day {
    pub calls: Vec<Call>,
    /// Places of the minute ends among the calls.
    pub minute_ends: Vec<usize>,
    /// Place of the fix among the calls, be it that of a final date.
    pub fix: Option<usize>,
    /// Place of the length of day among the calls.
    pub length_of_day: Option<usize>,
    /// Place of the call among the calls that made the date final.
    pub final_date: Option<usize>,
    /// The records that weren't accepted, in order.
    pub not_accepted: Vec<NotAccepted>,
}

#[derive(Clone, Debug, PartialEq, Eq)]
pub struct NotAccepted {
    pub record: Record,
    /// The place among the calls of its day that comes after it.
    pub place: usize,
}

impl Day {
    /// Adds an accepted call to the list.
    pub fn add(&mut self, call: Call) {
        let place = self.calls.len();
        self.calls.push(call);
        match call {
            Call::MinuteEnd(_) => self.minute_ends.push(place),
            Call::Fix(_) | Call::FinalFix(_) => self.fix = Some(place),
            Call::LengthOfDay(_) => self.length_of_day = Some(place),
            Call::FinalDate(_) => self.final_date = Some(place),
            _ => {}
        }
    }

    pub fn ended_minutes(&self) -> usize {
        self.minute_ends.len()
    }

    pub fn is_fixed(&self) -> bool {
        self.fix.is_some()
    }

    /// The call that fixed it.
    pub fn fixed_by(&self) -> Option<Call> {
        Some(self.calls[self.fix?])
    }

    pub fn is_final(&self) -> bool {
        self.final_date.is_some()
    }

    /// 02-7: a final date has "length 1,020"; else that of its length of day.
    pub fn given_length(&self) -> Option<u16> {
        if self.is_final() {
            return Some(FINAL_DAY);
        }
        match self.calls[self.length_of_day?] {
            Call::LengthOfDay(minutes) => Some(minutes),
            _ => None,
        }
    }

    /// The index of a minute counted from 1, 0 before its end.
    pub fn index(&self, minute: usize) -> u32 {
        let minute_end = self.minute_ends.get(minute - 1);
        match minute_end.map(|place| self.calls[*place]) {
            Some(Call::MinuteEnd(index)) => index,
            _ => 0,
        }
    }

    /// The calls between the minute end before a minute (counted from 1) and its own, none before its
    /// end.
    pub fn calls_of_minute(&self, minute: usize) -> &[Call] {
        match minute <= self.ended_minutes() {
            true => &self.calls[self.places_of_minute(minute)],
            false => &[],
        }
    }

    pub fn places_of_minute(&self, minute: usize) -> Range<usize> {
        self.place_after_minute(minute - 1)..self.minute_ends[minute - 1]
    }

    /// The calls after the last minute end before a place, up to it. After the day's last minute end
    /// they are all one minute.
    pub fn minute_before(&self, place: usize) -> &[Call] {
        let ended = self.minute_ends.partition_point(|end| *end < place);
        &self.calls[self.place_after_minute(ended)..place]
    }

    pub fn place_after_minute(&self, minute: usize) -> usize {
        match minute {
            0 => 0,
            _ => self.minute_ends[minute - 1] + 1,
        }
    }
}

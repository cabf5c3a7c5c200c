//! Wrong final dates: where their call may come, and what goes by their length.

use super::length_of;
use crate::wrong::lengths::{DateBegunBy, LengthAfter, Lengths};
use crate::wrong::of_tag::is_trade_of;
use crate::wrong::refusals::{moved, CheckMoved, Order};
use dayformat::kind::BLOCK;
use dayformat::tag;
use reference::call::Call;
use reference::file::Record;
use reference::history::{Day, History};
use reference::refusal::{Check, CHECKING_ORDER};
use reference::rules::{CallRules, ExpiryRules, RefusalRules, RightLedger};
use reference::terms::{FINAL_DAY, FULL_DAY, SHORT_DAY};

const MONTH_FIRST: Order = moved(CHECKING_ORDER, Check::Month, Check::Day);

pub static MONTH_BEFORE_DAY: CheckMoved = CheckMoved(&MONTH_FIRST);

pub struct FinalDateRefusedInHalt;

impl RefusalRules for FinalDateRefusedInHalt {
    fn halt_forbids(&self, call: Call, halted: bool) -> bool {
        match call {
            Call::FinalDate(_) => halted,
            _ => RightLedger.halt_forbids(call, halted),
        }
    }
}

fn is_final_date(call: Call) -> bool {
    matches!(call, Call::FinalDate(_))
}

/// A length of day of tag 8 may come after a final date.
pub struct LengthAfterFinalDate;

impl RefusalRules for LengthAfterFinalDate {
    fn length_of_day_is_late(&self, history: &History) -> bool {
        let mut calls = history.open_day().calls.iter();
        calls.any(|call| RightLedger.begins_date(*call) && !is_final_date(*call))
    }
}

impl ExpiryRules for LengthAfterFinalDate {
    fn final_date_is_late(&self, history: &History, _refusals: &dyn RefusalRules) -> bool {
        RightLedger.final_date_is_late(history, &RightLedger)
    }
}

/// A final date may come after these calls too.
pub struct FinalDateAfter(pub fn(Call) -> bool);

impl ExpiryRules for FinalDateAfter {
    fn final_date_is_late(&self, history: &History, _refusals: &dyn RefusalRules) -> bool {
        let mut calls = history.open_day().calls.iter();
        calls.any(|call| RightLedger.begins_date(*call) && !self.0(*call))
    }
}

pub static AFTER_LENGTH: FinalDateAfter =
    FinalDateAfter(|call| matches!(call, Call::LengthOfDay(_)));
pub static AFTER_FINAL_DATE: FinalDateAfter = FinalDateAfter(is_final_date);
pub static AFTER_QUOTE: FinalDateAfter = FinalDateAfter(|call| matches!(call, Call::Quote(_)));
pub static AFTER_TIMED_QUOTE: FinalDateAfter =
    FinalDateAfter(|call| matches!(call, Call::TimedQuote(_)));
pub static AFTER_TRADE: FinalDateAfter = FinalDateAfter(|call| matches!(call, Call::Trade(_)));
pub static AFTER_TWO_BYTE_TRADE: FinalDateAfter =
    FinalDateAfter(|call| is_trade_of(call, tag::TWO_BYTE_TRADE));
pub static AFTER_BLOCK: FinalDateAfter =
    FinalDateAfter(|call| matches!(call, Call::Trade(trade) if trade.kind == BLOCK));
pub static AFTER_HALT: FinalDateAfter = FinalDateAfter(|call| call == Call::Halt);
pub static AFTER_RESUME: FinalDateAfter = FinalDateAfter(|call| call == Call::Resume);
pub static AFTER_MINUTE_END: FinalDateAfter =
    FinalDateAfter(|call| matches!(call, Call::MinuteEnd(_)));
pub static FINAL_DATE_BEGINS_NOTHING: LengthAfter = LengthAfter(is_final_date);

pub static REFUSED_FINAL_DATE_BEGINS_DATE: DateBegunBy =
    DateBegunBy(|record| matches!(record, Record::Call(Call::FinalDate(_))));

pub struct CarriedHaltBeginsFinalDate;

impl ExpiryRules for CarriedHaltBeginsFinalDate {
    fn final_date_is_late(&self, history: &History, refusals: &dyn RefusalRules) -> bool {
        let halted = history.halts.last().is_some_and(|last| last.is_halt);
        halted || RightLedger.final_date_is_late(history, refusals)
    }
}

fn is_length_or_1020(minutes: u16) -> bool {
    RightLedger.is_length(minutes) || minutes == FINAL_DAY
}

pub static LENGTH_1020_ACCEPTED: Lengths = Lengths(is_length_or_1020);

pub struct Length1020IsFinal;

impl CallRules for Length1020IsFinal {
    fn is_length(&self, minutes: u16) -> bool {
        is_length_or_1020(minutes)
    }
}

impl ExpiryRules for Length1020IsFinal {
    fn is_final(&self, day: &Day) -> bool {
        day.given_length() == Some(FINAL_DAY)
    }
}

/// The date has the length, and is an ordinary one otherwise.
pub struct FinalDateIsOrdinary;

impl ExpiryRules for FinalDateIsOrdinary {
    fn is_final(&self, _day: &Day) -> bool {
        false
    }
}

/// A final date has this length.
pub struct FinalLength(usize);

impl CallRules for FinalLength {
    fn day_length(&self, days: &[Day]) -> usize {
        match days.last().is_some_and(Day::is_final) {
            true => self.0,
            false => RightLedger.day_length(days),
        }
    }
}

pub static FINAL_DATE_OF_1320: FinalLength = FinalLength(FULL_DAY as usize);
pub static FINAL_DATE_OF_1140: FinalLength = FinalLength(SHORT_DAY as usize);
pub static FINAL_DATE_OF_1019: FinalLength = FinalLength(FINAL_DAY as usize - 1);

pub struct FinalMinuteEndsTo1320;

impl RefusalRules for FinalMinuteEndsTo1320 {
    fn minute_end_is_late(&self, day: &Day, length: usize) -> bool {
        RightLedger.minute_end_is_late(day, length_of(day, length, FULL_DAY.into()))
    }
}

/// The fix of a final date may come after so many minutes.
pub struct FinalFixFrom(usize);

impl RefusalRules for FinalFixFrom {
    fn fix_is_early(&self, day: &Day, length: usize) -> bool {
        RightLedger.fix_is_early(day, length_of(day, length, self.0))
    }
}

pub static FINAL_FIX_FROM_1320: FinalFixFrom = FinalFixFrom(FULL_DAY as usize);
pub static FINAL_FIX_FROM_1019: FinalFixFrom = FinalFixFrom(FINAL_DAY as usize - 1);
pub static FINAL_FIX_AT_ANY_TIME: FinalFixFrom = FinalFixFrom(0);

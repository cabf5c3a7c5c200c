//! Wrong lengths of day: what goes by them, which are refused, and where their record may come.

use dayformat::kind::BLOCK;
use reference::call::Call;
use reference::file::Record;
use reference::history::{Day, History};
use reference::refusal::Check;
use reference::rules::{CallRules, RefusalRules, RightLedger};
use reference::terms::{FULL_DAY, SHORT_DAY};

pub struct SettlementInMinute1320;

impl CallRules for SettlementInMinute1320 {
    fn settlement_calls<'a>(&self, days: &'a [Day]) -> &'a [Call] {
        let full = FULL_DAY.into();
        days.last().map_or(&[], |day| day.calls_of_minute(full))
    }
}

pub struct IndexOfMinute1320;

impl CallRules for IndexOfMinute1320 {
    fn index(&self, days: &[Day]) -> i128 {
        let full = FULL_DAY.into();
        days.last().map_or(0, |day| day.index(full).into())
    }
}

pub struct MinuteEndsTo1320;

impl RefusalRules for MinuteEndsTo1320 {
    fn minute_end_is_late(&self, day: &Day, _length: usize) -> bool {
        RightLedger.minute_end_is_late(day, FULL_DAY.into())
    }
}

/// A fix may come after so many minutes of a day of this length.
pub struct FixFrom(fn(usize) -> usize);

impl RefusalRules for FixFrom {
    fn fix_is_early(&self, day: &Day, length: usize) -> bool {
        RightLedger.fix_is_early(day, self.0(length))
    }
}

pub static FIX_FROM_1320: FixFrom = FixFrom(|_| FULL_DAY.into());
pub static FIX_FROM_1140: FixFrom = FixFrom(|_| SHORT_DAY.into());
pub static FIX_ONE_MINUTE_EARLY: FixFrom = FixFrom(|length| length - 1);

pub struct CloseKeepsLength;

impl CallRules for CloseKeepsLength {
    fn day_length(&self, days: &[Day]) -> usize {
        let given = days.iter().rev().find_map(Day::given_length);
        given.unwrap_or(FULL_DAY).into()
    }
}

/// Its lengths are these.
pub struct Lengths(pub fn(u16) -> bool);

impl CallRules for Lengths {
    fn is_length(&self, minutes: u16) -> bool {
        self.0(minutes)
    }
}

pub static LENGTH_1320_REFUSED: Lengths = Lengths(|minutes| minutes == SHORT_DAY);
pub static ANY_LENGTH_TO_1320: Lengths = Lengths(|minutes| (1..=FULL_DAY).contains(&minutes));
pub static ANY_LENGTH_FROM_1140: Lengths = Lengths(|minutes| minutes >= SHORT_DAY);

/// The record may come after these calls too, up to the fix.
pub struct LengthAfter(pub fn(Call) -> bool);

impl RefusalRules for LengthAfter {
    fn begins_date(&self, call: Call) -> bool {
        match call {
            Call::Fix(_) | Call::FinalFix(_) => true,
            _ => RightLedger.begins_date(call) && !self.0(call),
        }
    }
}

pub static LENGTH_AFTER_LENGTH: LengthAfter =
    LengthAfter(|call| matches!(call, Call::LengthOfDay(_)));
pub static LENGTH_AFTER_1320: LengthAfter = LengthAfter(|call| call == Call::LengthOfDay(FULL_DAY));
pub static LENGTH_AFTER_QUOTE: LengthAfter = LengthAfter(|call| matches!(call, Call::Quote(_)));
pub static LENGTH_AFTER_TIMED_QUOTE: LengthAfter =
    LengthAfter(|call| matches!(call, Call::TimedQuote(_)));
pub static LENGTH_AFTER_TRADE: LengthAfter = LengthAfter(|call| matches!(call, Call::Trade(_)));
pub static LENGTH_AFTER_BLOCK: LengthAfter =
    LengthAfter(|call| matches!(call, Call::Trade(trade) if trade.kind == BLOCK));
pub static LENGTH_AFTER_HALT: LengthAfter = LengthAfter(|call| call == Call::Halt);
pub static LENGTH_AFTER_RESUME: LengthAfter = LengthAfter(|call| call == Call::Resume);
pub static LENGTH_AFTER_MINUTE_END: LengthAfter =
    LengthAfter(|call| matches!(call, Call::MinuteEnd(_)));

/// These records begin a date, though they aren't accepted.
pub struct DateBegunBy(pub fn(&Record) -> bool);

impl RefusalRules for DateBegunBy {
    fn length_of_day_is_late(&self, history: &History) -> bool {
        let mut not_accepted = history.open_day().not_accepted.iter();
        RightLedger.length_of_day_is_late(history)
            || not_accepted.any(|refused| self.0(&refused.record))
    }
}

pub static REFUSED_LENGTH_BEGINS_DATE: DateBegunBy = DateBegunBy(is_length_of_day);
pub static REFUSED_CALL_BEGINS_DATE: DateBegunBy =
    DateBegunBy(|record| matches!(record, Record::Call(_)) && !is_length_of_day(record));
pub static WRONG_LENGTH_BEGINS_DATE: DateBegunBy =
    DateBegunBy(|record| *record == Record::WrongLength);
pub static UNKNOWN_BEGINS_DATE: DateBegunBy = DateBegunBy(|record| *record == Record::Unknown);

fn is_length_of_day(record: &Record) -> bool {
    matches!(record, Record::Call(Call::LengthOfDay(_)))
}

pub struct CarriedHaltBeginsDate;

impl RefusalRules for CarriedHaltBeginsDate {
    fn length_of_day_is_late(&self, history: &History) -> bool {
        let halted = history.halts.last().is_some_and(|last| last.is_halt);
        RightLedger.length_of_day_is_late(history) || halted
    }
}

pub struct CloseKeepsBegun;

impl RefusalRules for CloseKeepsBegun {
    fn length_of_day_is_late(&self, history: &History) -> bool {
        history.closed_days() > 0 || RightLedger.length_of_day_is_late(history)
    }
}

pub struct LengthRefusedInHalt;

impl RefusalRules for LengthRefusedInHalt {
    fn halt_forbids(&self, call: Call, halted: bool) -> bool {
        match call {
            Call::LengthOfDay(_) => halted,
            _ => RightLedger.halt_forbids(call, halted),
        }
    }
}

pub struct LengthFieldBeforeDay;

impl RefusalRules for LengthFieldBeforeDay {
    fn checking_order(&self, call: Call) -> &'static [Check] {
        match call {
            Call::LengthOfDay(_) => &[Check::Field, Check::Day],
            _ => RightLedger.checking_order(call),
        }
    }
}

//! Wrong final closes, and calls accepted after the end.

use crate::wrong::of_tag::is_trade_of;
use dayformat::tag;
use reference::accounts::{net_position, ClosedDays};
use reference::call::Call;
use reference::file::Record;
use reference::history::{AccountTrade, Day, History};
use reference::play::Answer;
use reference::rules::{AtClose, CallRules, ExpiryRules, FileRules, RightLedger};
use reference::terms::SHORT_DAY;

fn is_at_the_end(closed: &ClosedDays) -> bool {
    closed.days.last().is_some_and(Day::is_final)
}

fn amounts_without_final_one(trade: &AccountTrade, closed: &ClosedDays) -> i128 {
    let paid = RightLedger.amounts(trade, closed);
    match closed.settlements.last() {
        Some(last) if is_at_the_end(closed) => paid - last.amount,
        _ => paid,
    }
}

/// The amount is paid on the positions that the final close has cleared.
pub struct AmountAfterClearing;

impl CallRules for AmountAfterClearing {
    fn amounts(&self, trade: &AccountTrade, closed: &ClosedDays) -> i128 {
        amounts_without_final_one(trade, closed)
    }
}

/// The cash of the final close is that of cleared positions, so that it moves by the cost alone.
pub struct PostedAfterClearing;

impl CallRules for PostedAfterClearing {
    fn gain(&self, trade: &AccountTrade, closed: &ClosedDays) -> i128 {
        let before = match closed.settlements {
            [.., before, _] if trade.day + 1 < closed.count() => before.price,
            _ => 0,
        };
        match is_at_the_end(closed) {
            true => before - i128::from(trade.trade.price),
            false => RightLedger.gain(trade, closed),
        }
    }

    fn amounts(&self, trade: &AccountTrade, closed: &ClosedDays) -> i128 {
        amounts_without_final_one(trade, closed)
    }
}

/// Likewise, with the opening positions as they were.
pub struct PresentClearedBeforePosting;

impl CallRules for PresentClearedBeforePosting {
    fn gain(&self, trade: &AccountTrade, closed: &ClosedDays) -> i128 {
        match is_at_the_end(closed) {
            true => -i128::from(trade.trade.price),
            false => RightLedger.gain(trade, closed),
        }
    }

    fn amounts(&self, trade: &AccountTrade, closed: &ClosedDays) -> i128 {
        amounts_without_final_one(trade, closed)
    }
}

pub struct CashCleared;

impl CallRules for CashCleared {
    fn gain(&self, trade: &AccountTrade, closed: &ClosedDays) -> i128 {
        match is_at_the_end(closed) {
            true => 0,
            false => RightLedger.gain(trade, closed),
        }
    }

    fn amounts(&self, trade: &AccountTrade, closed: &ClosedDays) -> i128 {
        match is_at_the_end(closed) {
            true => 0,
            false => RightLedger.amounts(trade, closed),
        }
    }
}

/// The close of these days clears the positions.
pub struct Clears(fn(&Day) -> bool);

impl ExpiryRules for Clears {
    fn clears(&self, day: &Day) -> bool {
        self.0(day)
    }
}

pub static NOT_CLEARED: Clears = Clears(|_| false);
pub static EVERY_CLOSE_CLEARS: Clears = Clears(|_| true);
pub static SHORT_CLOSE_CLEARS: Clears =
    Clears(|day| day.is_final() || day.given_length() == Some(SHORT_DAY));

fn net_before_clearing(at: &AtClose) -> i128 {
    net_position(at.history, at.account, 0..at.days, at.rules.calls)
}

pub struct PrintedBeforeClearing;

impl ExpiryRules for PrintedBeforeClearing {
    fn printed_net(&self, at: &AtClose) -> i128 {
        net_before_clearing(at)
    }
}

/// Every account that had a position is printed, without cash too.
pub struct ClearedAccountsPrinted;

impl ExpiryRules for ClearedAccountsPrinted {
    fn net_to_print_by(&self, at: &AtClose) -> i128 {
        net_before_clearing(at)
    }
}

/// These calls are accepted after the end.
pub struct AfterTheEnd(fn(Call) -> bool);

impl ExpiryRules for AfterTheEnd {
    fn end_forbids(&self, history: &History, call: Call) -> bool {
        RightLedger.end_forbids(history, call) && !self.0(call)
    }
}

pub static ALL_CALLS: AfterTheEnd = AfterTheEnd(|_| true);
pub static QUOTES: AfterTheEnd = AfterTheEnd(|call| matches!(call, Call::Quote(_)));
pub static TIMED_QUOTES: AfterTheEnd = AfterTheEnd(|call| matches!(call, Call::TimedQuote(_)));
pub static TRADES: AfterTheEnd = AfterTheEnd(|call| is_trade_of(call, tag::TRADE));
pub static TWO_BYTE_TRADES: AfterTheEnd =
    AfterTheEnd(|call| is_trade_of(call, tag::TWO_BYTE_TRADE));
pub static MINUTE_ENDS: AfterTheEnd = AfterTheEnd(|call| matches!(call, Call::MinuteEnd(_)));
pub static HALTS: AfterTheEnd = AfterTheEnd(|call| call == Call::Halt);
pub static RESUMES: AfterTheEnd = AfterTheEnd(|call| call == Call::Resume);
pub static LENGTHS: AfterTheEnd = AfterTheEnd(|call| matches!(call, Call::LengthOfDay(_)));
pub static FINAL_DATES: AfterTheEnd = AfterTheEnd(|call| matches!(call, Call::FinalDate(_)));

/// By the first refusal after it, which still is one.
pub struct EndForgotten;

impl ExpiryRules for EndForgotten {
    fn has_ended(&self, history: &History) -> bool {
        let mut refused = history.open_day().not_accepted.iter();
        RightLedger.has_ended(history)
            && !refused.any(|refused| matches!(refused.record, Record::Call(_)))
    }
}

/// Nothing but the close comes between the fix of a final date and its close.
pub struct EndedByFinalFix;

impl ExpiryRules for EndedByFinalFix {
    fn end_forbids(&self, history: &History, call: Call) -> bool {
        let day = history.open_day();
        let is_fixed = day.is_final() && day.is_fixed();
        RightLedger.end_forbids(history, call) || is_fixed && call != Call::Close
    }
}

pub struct SetsAfterTheEnd;

impl ExpiryRules for SetsAfterTheEnd {
    fn end_forbids_set(&self, _history: &History) -> bool {
        false
    }
}

/// The run for C doesn't count them.
pub struct NotCounted(fn(Call) -> bool);

impl FileRules for NotCounted {
    fn is_accepted(&self, answer: Answer) -> bool {
        match answer {
            Answer::Accepted(call) => !self.0(call),
            _ => RightLedger.is_accepted(answer),
        }
    }
}

pub static FINAL_DATE_NOT_COUNTED: NotCounted =
    NotCounted(|call| matches!(call, Call::FinalDate(_)));
pub static FINAL_FIX_NOT_COUNTED: NotCounted = NotCounted(|call| matches!(call, Call::FinalFix(_)));

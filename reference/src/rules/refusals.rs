//! Refusals, in checking order.

use crate::call::{Account, Call, Market, Trade};
use crate::history::{Day, History};
use crate::refusal::{Check, CHECKING_ORDER};
use crate::terms::{ACCOUNTS, LATEST_TIME};
use dayformat::kind::{BLOCK, SIMPLE};
use std::ops::RangeInclusive;

pub trait RefusalRules: Sync {
    /// "Refusals, in checking order": 3 to 9, 11, 12 and 14.
    fn checking_order(&self, _call: Call) -> &'static [Check] {
        &CHECKING_ORDER
    }

    /// 3: "any call on a book with 2,600 closed days".
    fn most_closed_days(&self) -> usize {
        2_600
    }

    /// 3: "a minute end after [the last minute] or after a fix".
    fn minute_end_is_late(&self, day: &Day, length: usize) -> bool {
        day.ended_minutes() >= length || day.is_fixed()
    }

    /// 3: "a fix before [the last minute]", of any date.
    fn fix_is_early(&self, day: &Day, length: usize) -> bool {
        day.ended_minutes() < length
    }

    /// 3: "a fix [...] twice".
    fn fix_is_second(&self, day: &Day, _call: Call) -> bool {
        day.is_fixed()
    }

    /// 02-1: "a late or second record by 3".
    fn length_of_day_is_late(&self, history: &History) -> bool {
        let mut calls = history.open_day().calls.iter();
        calls.any(|call| self.begins_date(*call))
    }

    /// 02-1: what the record comes before: "a date's first accepted quote, trade, halt, resume or minute
    /// end", and another record. 02-7: tags 8 and 11 are "one of the two per date".
    fn begins_date(&self, call: Call) -> bool {
        match call {
            Call::Quote(_) | Call::TimedQuote(_) | Call::Trade(_) => true,
            Call::Halt | Call::Resume => true,
            Call::MinuteEnd(_) | Call::LengthOfDay(_) | Call::FinalDate(_) => true,
            Call::Fix(_) | Call::FinalFix(_) | Call::Close => false,
        }
    }

    /// 4: "A trade, quote or halt comes while halted, or a resume while not."
    fn halt_forbids(&self, call: Call, halted: bool) -> bool {
        match call {
            Call::Trade(_) | Call::Quote(_) | Call::TimedQuote(_) | Call::Halt => halted,
            Call::Resume => !halted,
            Call::MinuteEnd(_) | Call::Fix(_) | Call::FinalFix(_) | Call::Close => false,
            Call::LengthOfDay(_) | Call::FinalDate(_) => false,
        }
    }

    /// 5: "quantity 0, above 100,000, or below 250 for kind 2".
    fn quantities(&self, kind: u8) -> RangeInclusive<u32> {
        match kind {
            BLOCK => 250..=100_000,
            _ => 1..=100_000,
        }
    }

    /// 5: "a kind 0 price not ticked".
    fn kind_is_ticked(&self, kind: u8) -> bool {
        kind == SIMPLE
    }

    /// 5, 02-4: "A time above 59,999".
    fn is_time(&self, time: u16) -> bool {
        time <= LATEST_TIME
    }

    /// 11, 02-4: "one that runs back within its minute", which has this latest time.
    fn time_runs_back(&self, time: u16, latest: u16) -> bool {
        time < latest
    }

    /// 6: "Both quote sides stand and the bid isn't below the offer."
    fn is_crossed(&self, market: Market) -> bool {
        market.is_two_sided() && market.bid >= market.offer
    }

    /// 02-5: "Accounts become two-byte numbers, 0 to 1,023."
    fn is_account(&self, account: Account) -> bool {
        usize::from(account) < ACCOUNTS
    }

    /// 12, 02-5: "An account above 1,023", be it the buyer's or the seller's.
    fn refuses_account(&self, trade: Trade) -> bool {
        !self.is_account(trade.buyer) || !self.is_account(trade.seller)
    }

    /// 7: "An account's v would pass 2,000,000"; 02-5: "The book's limits hold for each of 1,024 accounts."
    fn volume_limit(&self, _account: Account) -> i128 {
        2_000_000
    }

    /// 8: "A position would pass ±1,200,000."
    fn position_limit(&self, _account: Account) -> i128 {
        1_200_000
    }

    /// "A refused call returns its number",
    fn number(&self, check: Check) -> u8 {
        check.number()
    }

    /// "and the same book."
    fn changes_book(&self, refusal: Option<u8>) -> bool {
        refusal.is_none()
    }
}

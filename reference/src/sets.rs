//! The refusals that a set of trades can meet.

use crate::accounts::position;
use crate::call::{Account, Trade};
use crate::history::History;
use crate::refusal::{is_full, is_halted, trade_is_outside_field};
use crate::refusal::{ACCOUNT, DAY, FIELD, HALT, POSITION, SET_LENGTH, VOLUME};
use crate::rules::Rules;
use std::collections::BTreeMap;

/// One step of a set's checking order.
#[derive(Clone, Copy, Debug, PartialEq, Eq)]
pub enum SetCheck {
    Day,
    Halt,
    Length,
    /// Of the trade with this place in the list, from 0.
    Field(usize),
    Account(usize),
    /// After so many of the trades.
    Volume(usize),
    Position(usize),
}

impl SetCheck {
    pub fn number(self) -> u8 {
        match self {
            SetCheck::Day => DAY,
            SetCheck::Halt => HALT,
            SetCheck::Length => SET_LENGTH,
            SetCheck::Field(_) => FIELD,
            SetCheck::Account(_) => ACCOUNT,
            SetCheck::Volume(_) => VOLUME,
            SetCheck::Position(_) => POSITION,
        }
    }
}

/// The first check in checking order whose sentence is met.
pub fn set_refusal(history: &History, trades: &[Trade], rules: Rules) -> Option<SetCheck> {
    let asked = AskedSet {
        history,
        trades,
        rules,
    };
    let mut order = rules.sets.checking_order(trades).into_iter();
    order.find(|check| asked.meets(*check))
}

/// A set that isn't accepted yet.
struct AskedSet<'a> {
    history: &'a History,
    trades: &'a [Trade],
    rules: Rules,
}

impl AskedSet<'_> {
    /// "Each trade must pass the halt, field and account checks by itself."
    fn meets(&self, check: SetCheck) -> bool {
        let (history, trades, rules) = (self.history, self.trades, self.rules);
        match check {
            SetCheck::Day => is_full(history, rules) || rules.expiry.end_forbids_set(history),
            SetCheck::Halt => rules.sets.halt_forbids(trades, is_halted(history, rules)),
            SetCheck::Length => !rules.sets.is_length(trades.len()),
            SetCheck::Field(place) => trade_is_outside_field(trades[place], rules),
            SetCheck::Account(place) => rules.refusals.refuses_account(trades[place]),
            SetCheck::Volume(count) => self.passes_volume(check, &trades[..count]),
            SetCheck::Position(count) => self.passes_position(check, &trades[..count]),
        }
    }

    fn passes_volume(&self, check: SetCheck, trades: &[Trade]) -> bool {
        let Rules { calls, sets, .. } = self.rules;
        let contracts = |trade, account| calls.contracts(trade, account);
        let mut judged = self.judged(check, trades, contracts).into_iter();
        judged.any(|(account, added)| {
            let after = sets.volume_after(calls.volume(self.history, account), &added);
            after > self.rules.refusals.volume_limit(account)
        })
    }

    fn passes_position(&self, check: SetCheck, trades: &[Trade]) -> bool {
        let Rules { calls, sets, .. } = self.rules;
        let days = self.history.days.len();
        let signed = |trade, account| calls.signed_quantity(trade, account);
        let mut judged = self.judged(check, trades, signed).into_iter();
        judged.any(|(account, added)| {
            let present = position(self.history, account, days, self.rules);
            let after = sets.position_after(present, &added);
            after.abs() > self.rules.refusals.position_limit(account)
        })
    }

    /// The accounts that a check looks at, each with a figure of its trades in list order.
    fn judged(
        &self,
        check: SetCheck,
        trades: &[Trade],
        figure: impl Fn(Trade, Account) -> i128,
    ) -> BTreeMap<Account, Vec<i128>> {
        let mut judged: BTreeMap<Account, Vec<i128>> = BTreeMap::new();
        for trade in trades {
            for account in trade.accounts() {
                let figures = judged.entry(account).or_default();
                figures.push(figure(*trade, account));
            }
        }
        judged.retain(|account, _| self.rules.sets.judges(check, trades, *account));
        judged
    }
}

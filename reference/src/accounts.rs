//! An account's contracts, position and cash, each from its list of trades.

use crate::call::Account;
use crate::history::{AccountTrade, Day, History};
use crate::rules::{CallRules, Rules};
use crate::settlement::Settlement;
use crate::terms::CASH_PER_CENT;
use std::ops::Range;

/// Contracts bought plus sold on the open day.
pub fn volume<R: CallRules + ?Sized>(history: &History, account: Account, rules: &R) -> i128 {
    let today = history.closed_days();
    let trades = history.trades_of(account).iter().rev();
    trades
        .take_while(|trade| rules.counts_in_volume(trade, today))
        .map(|trade| rules.contracts(trade.trade, account))
        .sum()
}

/// The position after the first `days` days: the net one of those whose trades no close has cleared.
pub fn position(history: &History, account: Account, days: usize, rules: Rules) -> i128 {
    let closed = &history.days[..days.min(history.closed_days())];
    let cleared = closed.iter().rposition(|day| rules.expiry.clears(day));
    let first = cleared.map_or(0, |day| day + 1);
    net_position(history, account, first..days, rules.calls)
}

/// What the trades of these days leave.
pub fn net_position(
    history: &History,
    account: Account,
    days: Range<usize>,
    rules: &dyn CallRules,
) -> i128 {
    trades_of(history, account, days.end)
        .filter(|trade| trade.day >= days.start)
        .map(|trade| rules.signed_quantity(trade.trade, account))
        .sum()
}

fn trades_of(
    history: &History,
    account: Account,
    days: usize,
) -> impl Iterator<Item = &AccountTrade> {
    let trades = history.trades_of(account).iter();
    trades.take_while(move |trade| trade.day < days)
}

/// The closed days, as far as cash follows from them.
pub struct ClosedDays<'a> {
    pub last_price: i128,
    pub days: &'a [Day],
    pub settlements: &'a [Settlement],
    /// Entry d is the sum of the amounts from day d to the last closed day.
    amounts_from: Vec<i128>,
}

impl<'a> ClosedDays<'a> {
    /// The first days, which have these settlements.
    pub fn new(history: &'a History, settlements: &'a [Settlement]) -> Self {
        let mut amounts_from = vec![0; settlements.len() + 1];
        for (day, settlement) in settlements.iter().enumerate().rev() {
            amounts_from[day] = amounts_from[day + 1] + settlement.amount;
        }
        ClosedDays {
            last_price: settlements.last().map_or(0, |settlement| settlement.price),
            days: &history.days[..settlements.len()],
            settlements,
            amounts_from,
        }
    }

    pub fn count(&self) -> usize {
        self.days.len()
    }

    /// The sum of the amounts of a day and those after it.
    pub fn amounts_from(&self, day: usize) -> i128 {
        self.amounts_from[day]
    }

    /// What the account's trades of these days yield, with every amount paid on them. 02-7: "Clients'
    /// total cash must still follow from trades and daily amounts".
    pub fn cash(&self, history: &History, account: Account, rules: &dyn CallRules) -> i128 {
        if !rules.posts_to(account) {
            return 0;
        }
        let size = i128::from(history.size);
        let of_contract = |trade: &AccountTrade| {
            rules.gain(trade, self) * size + rules.amounts(trade, self) * CASH_PER_CENT
        };
        trades_of(history, account, self.count())
            .map(|trade| rules.signed_quantity(trade.trade, account) * of_contract(trade))
            .sum()
    }
}

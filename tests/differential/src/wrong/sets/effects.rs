//! Wrong effects of a set: of a refused one, of its list, and of its trades.

use crate::wrong::expiry::FinalDateAfter;
use crate::wrong::lengths::{DateBegunBy, LengthAfter};
use crate::wrong::of_tag::{is_trade_of, LastOf, NoCostOf, SettlementOf, VolumeOf};
use crate::wrong::times::TimeResetBy;
use dayformat::kind::SIMPLE;
use dayformat::set::TAG;
use reference::accounts::{volume, ClosedDays};
use reference::call::{Account, Trade};
use reference::file::Record;
use reference::history::{AccountTrade, History};
use reference::rules::{CallRules, RightLedger, SetRules};
use reference::sets::SetCheck;

/// What a refused set leaves of its list.
pub struct RefusedLeaves(fn(&[Trade], SetCheck) -> Vec<Trade>);

impl SetRules for RefusedLeaves {
    fn leaves(&self, trades: &[Trade], refused: Option<SetCheck>) -> Vec<Trade> {
        match refused {
            None => RightLedger.leaves(trades, None),
            Some(check) => self.0(trades, check),
        }
    }
}

pub static UP_TO_BAD_TRADE: RefusedLeaves = RefusedLeaves(|trades, check| match check {
    SetCheck::Field(place) | SetCheck::Account(place) => trades[..place].to_vec(),
    _ => Vec::new(),
});
pub static AFTER_BAD_TRADE: RefusedLeaves = RefusedLeaves(|trades, check| match check {
    SetCheck::Field(place) | SetCheck::Account(place) => trades[place + 1..].to_vec(),
    _ => Vec::new(),
});
pub static VOLUME_REFUSED_APPLIED: RefusedLeaves = RefusedLeaves(|trades, check| match check {
    SetCheck::Volume(_) => trades.to_vec(),
    _ => Vec::new(),
});
pub static POSITION_REFUSED_APPLIED: RefusedLeaves = RefusedLeaves(|trades, check| match check {
    SetCheck::Position(_) => trades.to_vec(),
    _ => Vec::new(),
});
pub static LONG_SET_APPLIED: RefusedLeaves = RefusedLeaves(|trades, check| match check {
    SetCheck::Length => trades.to_vec(),
    _ => Vec::new(),
});

/// What an accepted set stands for.
pub struct StandsFor(fn(&[Trade]) -> Vec<Trade>);

impl SetRules for StandsFor {
    fn leaves(&self, trades: &[Trade], refused: Option<SetCheck>) -> Vec<Trade> {
        match refused {
            None => self.0(trades),
            Some(_) => Vec::new(),
        }
    }
}

pub static REVERSED: StandsFor = StandsFor(|trades| trades.iter().rev().copied().collect());
pub static FIRST_SIMPLE_TRADE_IS_LAST: StandsFor = StandsFor(first_simple_last);
pub static FIRST_TRADE_LOST: StandsFor = StandsFor(|trades| trades[1..].to_vec());
pub static LAST_TRADE_LOST: StandsFor = StandsFor(|trades| trades[..trades.len() - 1].to_vec());
pub static TRADE_500_LOST: StandsFor = StandsFor(|trades| trades[..trades.len().min(499)].to_vec());
pub static EQUAL_TRADES_ONCE: StandsFor = StandsFor(without_equal_ones);
pub static AT_AVERAGE_PRICE: StandsFor = StandsFor(at_average_price);

fn first_simple_last(trades: &[Trade]) -> Vec<Trade> {
    let mut trades = trades.to_vec();
    if let Some(first) = trades.iter().position(|trade| trade.kind == SIMPLE) {
        trades[first..].rotate_left(1);
    }
    trades
}

fn without_equal_ones(trades: &[Trade]) -> Vec<Trade> {
    let mut left: Vec<Trade> = Vec::new();
    for trade in trades {
        if !left.contains(trade) {
            left.push(*trade);
        }
    }
    left
}

/// Every contract at one price, its fraction cut off.
fn at_average_price(trades: &[Trade]) -> Vec<Trade> {
    let quantity = |trade: &Trade| u64::from(trade.quantity);
    let contracts: u64 = trades.iter().map(quantity).sum();
    let gross: u64 = trades
        .iter()
        .map(|trade| quantity(trade) * u64::from(trade.price))
        .sum();
    let price = (gross / contracts) as u32;
    trades
        .iter()
        .map(|trade| Trade { price, ..*trade })
        .collect()
}

pub static SET_LEAVES_LAST: LastOf = LastOf(TAG, |_| false);
pub static BLOCKS_OF_SET_SET_LAST: LastOf = LastOf(TAG, |_| true);
pub static SET_NOT_IN_SETTLEMENT: SettlementOf = SettlementOf(TAG, |_| false);
pub static BLOCKS_OF_SET_IN_SETTLEMENT: SettlementOf = SettlementOf(TAG, |_| true);
pub static SET_LEAVES_COST: NoCostOf = NoCostOf(TAG);
pub static SET_NOT_IN_VOLUME: VolumeOf = VolumeOf(TAG, |_, _| 0);
pub static SELF_TRADE_OF_SET_ONCE: VolumeOf = VolumeOf(TAG, |trade, account| {
    trade.bought(account).max(trade.sold(account))
});

/// A set is judged by its v, and what comes after it isn't.
pub struct SetLeavesVolume;

impl CallRules for SetLeavesVolume {
    fn volume(&self, history: &History, account: Account) -> i128 {
        volume(history, account, &SET_NOT_IN_VOLUME)
    }
}

/// No amount is paid at the close on what a set moves after the fix.
pub struct SetAfterFixWithoutAmount;

impl CallRules for SetAfterFixWithoutAmount {
    fn amounts(&self, trade: &AccountTrade, closed: &ClosedDays) -> i128 {
        let is_late = trade.after_fix && trade.trade.tag == TAG;
        closed.amounts_from(trade.day + usize::from(is_late))
    }
}

pub static LENGTH_AFTER_SET: LengthAfter = LengthAfter(|call| is_trade_of(call, TAG));
pub static FINAL_DATE_AFTER_SET: FinalDateAfter = FinalDateAfter(|call| is_trade_of(call, TAG));
pub static REFUSED_SET_BEGINS_DATE: DateBegunBy =
    DateBegunBy(|record| matches!(record, Record::Set(_)));
pub static TIME_RESET_BY_SET: TimeResetBy = TimeResetBy(|call| is_trade_of(*call, TAG));

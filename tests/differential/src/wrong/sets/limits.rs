//! Limits that are judged on another state than that after the entire set, or of some accounts alone.

use crate::wrong::account_numbers::is_of_one_byte;
use reference::call::{Account, Trade};
use reference::refusal::{POSITION, VOLUME};
use reference::rules::{RightLedger, SetRules};
use reference::sets::SetCheck;

/// The limit of this number is that of some accounts alone.
pub struct Judged(u8, fn(&[Trade], Account) -> bool);

impl SetRules for Judged {
    fn judges(&self, check: SetCheck, trades: &[Trade], account: Account) -> bool {
        check.number() != self.0 || self.1(trades, account)
    }
}

fn is_among(trades: &[Trade], account: Account) -> bool {
    let mut accounts = trades.iter().flat_map(|trade| trade.accounts());
    accounts.any(|other| other == account)
}

fn of_first_trade(trades: &[Trade], account: Account) -> bool {
    is_among(&trades[..trades.len().min(1)], account)
}

fn of_last_trade(trades: &[Trade], account: Account) -> bool {
    is_among(&trades[trades.len().saturating_sub(1)..], account)
}

fn of_all_but_first(trades: &[Trade], account: Account) -> bool {
    is_among(&trades[trades.len().min(1)..], account)
}

fn of_all_but_last(trades: &[Trade], account: Account) -> bool {
    is_among(&trades[..trades.len().saturating_sub(1)], account)
}

fn is_buyer(trades: &[Trade], account: Account) -> bool {
    trades.iter().any(|trade| trade.buyer == account)
}

fn is_seller(trades: &[Trade], account: Account) -> bool {
    trades.iter().any(|trade| trade.seller == account)
}

pub static VOLUME_OF_FIRST_TRADE: Judged = Judged(VOLUME, of_first_trade);
pub static VOLUME_OF_LAST_TRADE: Judged = Judged(VOLUME, of_last_trade);
pub static VOLUME_OF_ALL_BUT_FIRST: Judged = Judged(VOLUME, of_all_but_first);
pub static VOLUME_OF_ALL_BUT_LAST: Judged = Judged(VOLUME, of_all_but_last);
pub static VOLUME_OF_BUYERS: Judged = Judged(VOLUME, is_buyer);
pub static VOLUME_OF_SELLERS: Judged = Judged(VOLUME, is_seller);
pub static VOLUME_OF_ONE_BYTE: Judged = Judged(VOLUME, |_, account| is_of_one_byte(account));
pub static POSITION_OF_FIRST_TRADE: Judged = Judged(POSITION, of_first_trade);
pub static POSITION_OF_LAST_TRADE: Judged = Judged(POSITION, of_last_trade);
pub static POSITION_OF_ALL_BUT_FIRST: Judged = Judged(POSITION, of_all_but_first);
pub static POSITION_OF_ALL_BUT_LAST: Judged = Judged(POSITION, of_all_but_last);
pub static POSITION_OF_BUYERS: Judged = Judged(POSITION, is_buyer);
pub static POSITION_OF_SELLERS: Judged = Judged(POSITION, is_seller);
pub static POSITION_OF_ONE_BYTE: Judged = Judged(POSITION, |_, account| is_of_one_byte(account));

/// By that before the set and what each trade adds.
type After = fn(i128, &[i128]) -> i128;

pub struct VolumeAfter(After);

impl SetRules for VolumeAfter {
    fn volume_after(&self, before: i128, added: &[i128]) -> i128 {
        self.0(before, added)
    }
}

pub struct PositionAfter(After);

impl SetRules for PositionAfter {
    fn position_after(&self, before: i128, added: &[i128]) -> i128 {
        self.0(before, added)
    }
}

/// The right v or position.
fn after(before: i128, added: &[i128]) -> i128 {
    RightLedger.position_after(before, added)
}

/// The one that lies farthest from 0 of those after each trade.
fn farthest(before: i128, added: &[i128]) -> i128 {
    let counts = 1..=added.len();
    let on_the_way = counts.map(|count| after(before, &added[..count]));
    on_the_way
        .max_by_key(|position| position.abs())
        .unwrap_or(before)
}

/// After the largest trade alone.
fn of_largest(before: i128, added: &[i128]) -> i128 {
    let each = added.iter().map(|added| before + added);
    each.max_by_key(|after| after.abs()).unwrap_or(before)
}

pub static VOLUME_LIMIT_ONE_LESS: VolumeAfter =
    VolumeAfter(|before, added| after(before, added) + 1);
pub static VOLUME_LIMIT_ONE_MORE: VolumeAfter =
    VolumeAfter(|before, added| after(before, added) - 1);
pub static VOLUME_OF_SET_ALONE: VolumeAfter = VolumeAfter(|_, added| after(0, added));
pub static VOLUME_AFTER_LARGEST_TRADE: VolumeAfter = VolumeAfter(of_largest);
pub static POSITION_LIMIT_ONE_LESS: PositionAfter =
    PositionAfter(|before, added| after(before, added).abs() + 1);
pub static POSITION_LIMIT_ONE_MORE: PositionAfter =
    PositionAfter(|before, added| after(before, added).abs() - 1);
pub static POSITION_OF_SET_ALONE: PositionAfter = PositionAfter(|_, added| after(0, added));
pub static POSITION_AFTER_LARGEST_TRADE: PositionAfter = PositionAfter(of_largest);
pub static POSITION_ON_THE_WAY: PositionAfter = PositionAfter(farthest);
pub static LONG_POSITIONS_ALONE: PositionAfter =
    PositionAfter(|before, added| after(before, added).max(0));
pub static SHORT_POSITIONS_ALONE: PositionAfter =
    PositionAfter(|before, added| after(before, added).min(0));

//! Wrong positions, volumes and cash.

use dayformat::kind::SIMPLE;
use reference::accounts::ClosedDays;
use reference::call::{Account, Trade};
use reference::history::AccountTrade;
use reference::rules::{CallRules, RightLedger};

pub struct AmountOnPositionsAtFix;

impl CallRules for AmountOnPositionsAtFix {
    fn amounts(&self, trade: &AccountTrade, closed: &ClosedDays) -> i128 {
        closed.amounts_from(trade.day + usize::from(trade.after_fix))
    }
}

/// Every later close charges a trade's cost once more.
pub struct CloseKeepsCost;

impl CallRules for CloseKeepsCost {
    fn gain(&self, trade: &AccountTrade, closed: &ClosedDays) -> i128 {
        let closes = (closed.count() - trade.day) as i128;
        closed.last_price - i128::from(trade.trade.price) * closes
    }
}

/// Blocks and spread trades move no position, and so no cash.
pub struct OtherKindsLeavePositions;

impl CallRules for OtherKindsLeavePositions {
    fn signed_quantity(&self, trade: Trade, account: Account) -> i128 {
        match trade.kind {
            SIMPLE => RightLedger.signed_quantity(trade, account),
            _ => 0,
        }
    }
}

/// Blocks and spread trades move no cost.
pub struct OtherKindsLeaveCost;

impl CallRules for OtherKindsLeaveCost {
    fn gain(&self, trade: &AccountTrade, closed: &ClosedDays) -> i128 {
        match trade.trade.kind {
            SIMPLE => RightLedger.gain(trade, closed),
            _ => closed.last_price,
        }
    }
}

/// The seller's side, written last, stands.
pub struct SelfTradeReadBeforeWrite;

impl CallRules for SelfTradeReadBeforeWrite {
    fn signed_quantity(&self, trade: Trade, account: Account) -> i128 {
        match trade.is_with_oneself() {
            true => -trade.sold(account),
            false => RightLedger.signed_quantity(trade, account),
        }
    }

    fn contracts(&self, trade: Trade, account: Account) -> i128 {
        trade.bought(account).max(trade.sold(account))
    }
}

pub struct SelfTradeOnceInVolume;

impl CallRules for SelfTradeOnceInVolume {
    fn contracts(&self, trade: Trade, account: Account) -> i128 {
        trade.bought(account).max(trade.sold(account))
    }
}

pub struct CloseKeepsVolume;

impl CallRules for CloseKeepsVolume {
    fn counts_in_volume(&self, _trade: &AccountTrade, _today: usize) -> bool {
        true
    }
}

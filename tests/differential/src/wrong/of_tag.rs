//! Trades of one tag, 10 or that of sets, that do another thing than the others.

use reference::accounts::ClosedDays;
use reference::call::{Account, Call, Trade};
use reference::history::AccountTrade;
use reference::rules::{CallRules, RightLedger};

pub fn is_trade_of(call: Call, tag: u8) -> bool {
    matches!(call, Call::Trade(trade) if trade.tag == tag)
}

/// Which of the tag set the last price.
pub struct LastOf(pub u8, pub fn(Trade) -> bool);

impl CallRules for LastOf {
    fn sets_last(&self, trade: Trade) -> bool {
        match trade.tag == self.0 {
            true => self.1(trade),
            false => RightLedger.sets_last(trade),
        }
    }
}

/// Which of the tag add to n and gross.
pub struct SettlementOf(pub u8, pub fn(Trade) -> bool);

impl CallRules for SettlementOf {
    fn counts_in_settlement(&self, trade: Trade) -> bool {
        match trade.tag == self.0 {
            true => self.1(trade),
            false => RightLedger.counts_in_settlement(trade),
        }
    }
}

/// Those of the tag move no cost.
pub struct NoCostOf(pub u8);

impl CallRules for NoCostOf {
    fn gain(&self, trade: &AccountTrade, closed: &ClosedDays) -> i128 {
        match trade.trade.tag == self.0 {
            true => closed.last_price,
            false => RightLedger.gain(trade, closed),
        }
    }
}

/// What one of the tag adds to an account's v.
pub struct VolumeOf(pub u8, pub fn(Trade, Account) -> i128);

impl CallRules for VolumeOf {
    fn contracts(&self, trade: Trade, account: Account) -> i128 {
        match trade.tag == self.0 {
            true => self.1(trade, account),
            false => RightLedger.contracts(trade, account),
        }
    }
}

//! Wrong settlement prices.

use dayformat::kind::{BLOCK, SIMPLE, SPREAD};
use reference::call::{Call, Trade};
use reference::history::Day;
use reference::rules::{CallRules, RightLedger};
use reference::settlement::PriceRule;

pub struct BlocksInSettlement;

impl CallRules for BlocksInSettlement {
    fn counts_in_settlement(&self, trade: Trade) -> bool {
        trade.kind == SIMPLE || trade.kind == BLOCK
    }
}

pub struct SpreadTradesInSettlement;

impl CallRules for SpreadTradesInSettlement {
    fn counts_in_settlement(&self, trade: Trade) -> bool {
        trade.kind == SIMPLE || trade.kind == SPREAD
    }
}

pub struct LateTradesInSettlement;

impl CallRules for LateTradesInSettlement {
    fn settlement_calls<'a>(&self, days: &'a [Day]) -> &'a [Call] {
        let length = self.day_length(days);
        days.last().map_or(&[], |day| {
            let start = day.place_after_minute(length - 1);
            &day.calls[start..day.fix.unwrap_or(day.calls.len())]
        })
    }
}

pub struct IndexOfMinuteBefore;

impl CallRules for IndexOfMinuteBefore {
    fn index(&self, days: &[Day]) -> i128 {
        let length = self.day_length(days);
        days.last().map_or(0, |day| day.index(length - 1).into())
    }
}

pub struct OlderIndexKept;

impl CallRules for OlderIndexKept {
    fn previous_index(&self, earlier: &[Day]) -> i128 {
        let counts = (1..=earlier.len()).rev();
        let mut indexes = counts.map(|count| self.index(&earlier[..count]));
        indexes.find(|index| *index != 0).unwrap_or(0)
    }
}

pub struct FirstDayAtIndex;

impl CallRules for FirstDayAtIndex {
    fn index_price(&self, index: i128, previous_price: i128, previous_index: i128) -> Option<i128> {
        match previous_price {
            0 => Some(index).filter(|index| *index != 0),
            _ => RightLedger.index_price(index, previous_price, previous_index),
        }
    }
}

pub struct TradesBeforeSetPrice;

impl CallRules for TradesBeforeSetPrice {
    fn price_rules(&self) -> &'static [PriceRule] {
        &[PriceRule::Trades, PriceRule::SetPrice, PriceRule::Index]
    }
}

pub struct IndexRuleUnbounded;

impl CallRules for IndexRuleUnbounded {
    fn index_price(&self, index: i128, previous_price: i128, previous_index: i128) -> Option<i128> {
        let given = index != 0 && previous_price != 0 && previous_index != 0;
        given.then_some(index + previous_price - previous_index)
    }
}

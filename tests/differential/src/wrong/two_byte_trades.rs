//! Trades of tag 10 that do another thing than those of tag 1.

use crate::wrong::lengths::LengthAfter;
use crate::wrong::of_tag::{is_trade_of, LastOf, NoCostOf, SettlementOf, VolumeOf};
use crate::wrong::times::TimeResetBy;
use dayformat::tag::TWO_BYTE_TRADE;
use reference::call::Call;
use reference::play::Answer;
use reference::rules::{FileRules, RefusalRules, RightLedger};

fn is_two_byte_trade(call: Call) -> bool {
    is_trade_of(call, TWO_BYTE_TRADE)
}

pub static LENGTH_AFTER_TWO_BYTE_TRADE: LengthAfter = LengthAfter(is_two_byte_trade);
pub static TIME_RESET_BY_TWO_BYTE_TRADE: TimeResetBy = TimeResetBy(|call| is_two_byte_trade(*call));

pub struct TwoByteTradeAcceptedInHalt;

impl RefusalRules for TwoByteTradeAcceptedInHalt {
    fn halt_forbids(&self, call: Call, halted: bool) -> bool {
        RightLedger.halt_forbids(call, halted) && !is_two_byte_trade(call)
    }
}

pub static TWO_BYTE_TRADE_LEAVES_LAST: LastOf = LastOf(TWO_BYTE_TRADE, |_| false);
pub static TWO_BYTE_BLOCK_SETS_LAST: LastOf = LastOf(TWO_BYTE_TRADE, |_| true);
pub static TWO_BYTE_TRADE_NOT_IN_SETTLEMENT: SettlementOf = SettlementOf(TWO_BYTE_TRADE, |_| false);
pub static TWO_BYTE_BLOCK_IN_SETTLEMENT: SettlementOf = SettlementOf(TWO_BYTE_TRADE, |_| true);
pub static TWO_BYTE_TRADE_LEAVES_COST: NoCostOf = NoCostOf(TWO_BYTE_TRADE);
pub static TWO_BYTE_TRADE_LEAVES_VOLUME: VolumeOf = VolumeOf(TWO_BYTE_TRADE, |_, _| 0);

/// The run for C doesn't count them.
pub struct TwoByteTradeNotCounted;

impl FileRules for TwoByteTradeNotCounted {
    fn is_accepted(&self, answer: Answer) -> bool {
        match answer {
            Answer::Accepted(call) => !is_two_byte_trade(call),
            _ => false,
        }
    }
}

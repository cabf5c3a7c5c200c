//! Wrong refusals: their order, their limits, and what a refused call does.

use dayformat::kind::{BLOCK, SPREAD};
use reference::call::{Account, Call, Market};
use reference::history::Day;
use reference::refusal::{Check, CHECKING_ORDER, POSITION, VOLUME};
use reference::rules::{CallRules, RefusalRules, RightLedger};
use std::ops::RangeInclusive;

/// A trade past 7 or 8 moves the accounts all the same.
pub struct RefusedTradeTakesEffect;

impl RefusalRules for RefusedTradeTakesEffect {
    fn changes_book(&self, refusal: Option<u8>) -> bool {
        matches!(refusal, None | Some(VOLUME | POSITION))
    }
}

pub type Order = [Check; CHECKING_ORDER.len()];

/// The order with a check moved up to just before another.
pub const fn moved(mut order: Order, check: Check, before: Check) -> Order {
    let mut place = order.len() - 1;
    while place > 0 {
        if order[place] as u8 == check as u8 {
            order[place] = order[place - 1];
            order[place - 1] = check;
            if order[place] as u8 == before as u8 {
                break;
            }
        }
        place -= 1;
    }
    order
}

/// Another order for every call.
pub struct CheckMoved(pub &'static Order);

impl RefusalRules for CheckMoved {
    fn checking_order(&self, _call: Call) -> &'static [Check] {
        self.0
    }
}

pub struct PositionBeforeVolume;

impl RefusalRules for PositionBeforeVolume {
    fn checking_order(&self, _call: Call) -> &'static [Check] {
        const BUYER: Order = moved(CHECKING_ORDER, Check::BuyerPosition, Check::BuyerVolume);
        const BOTH: Order = moved(BUYER, Check::SellerPosition, Check::BuyerVolume);
        &BOTH
    }
}

pub struct BuyerBeforeSeller;

impl RefusalRules for BuyerBeforeSeller {
    fn checking_order(&self, _call: Call) -> &'static [Check] {
        const ORDER: Order = moved(CHECKING_ORDER, Check::BuyerPosition, Check::SellerVolume);
        &ORDER
    }
}

pub struct FieldBeforeHalt;

impl RefusalRules for FieldBeforeHalt {
    fn checking_order(&self, _call: Call) -> &'static [Check] {
        const ORDER: Order = moved(CHECKING_ORDER, Check::Field, Check::Halt);
        &ORDER
    }
}

pub struct FieldBeforeDay;

impl RefusalRules for FieldBeforeDay {
    fn checking_order(&self, _call: Call) -> &'static [Check] {
        const ORDER: Order = moved(CHECKING_ORDER, Check::Field, Check::Day);
        &ORDER
    }
}

pub struct CrossedBeforeField;

impl RefusalRules for CrossedBeforeField {
    fn checking_order(&self, _call: Call) -> &'static [Check] {
        const ORDER: Order = moved(CHECKING_ORDER, Check::Crossed, Check::Field);
        &ORDER
    }
}

pub struct MinuteEndRefusedInHalt;

impl RefusalRules for MinuteEndRefusedInHalt {
    fn halt_forbids(&self, call: Call, halted: bool) -> bool {
        match call {
            Call::MinuteEnd(_) => halted,
            _ => RightLedger.halt_forbids(call, halted),
        }
    }
}

pub struct DayLimitOneLess;

impl RefusalRules for DayLimitOneLess {
    fn most_closed_days(&self) -> usize {
        RightLedger.most_closed_days() - 1
    }
}

pub struct DayLimitOneMore;

impl RefusalRules for DayLimitOneMore {
    fn most_closed_days(&self) -> usize {
        RightLedger.most_closed_days() + 1
    }
}

pub struct MinuteLimitOneMore;

impl RefusalRules for MinuteLimitOneMore {
    fn minute_end_is_late(&self, day: &Day, length: usize) -> bool {
        RightLedger.minute_end_is_late(day, length + 1)
    }
}

pub struct VolumeLimitOneLess;

impl RefusalRules for VolumeLimitOneLess {
    fn volume_limit(&self, account: Account) -> i128 {
        RightLedger.volume_limit(account) - 1
    }
}

pub struct PositionLimitOneLess;

impl RefusalRules for PositionLimitOneLess {
    fn position_limit(&self, account: Account) -> i128 {
        RightLedger.position_limit(account) - 1
    }
}

pub struct QuantityLimitOneLess;

impl RefusalRules for QuantityLimitOneLess {
    fn quantities(&self, kind: u8) -> RangeInclusive<u32> {
        let right = RightLedger.quantities(kind);
        *right.start()..=right.end() - 1
    }
}

pub struct BlockLimitOneMore;

impl RefusalRules for BlockLimitOneMore {
    fn quantities(&self, kind: u8) -> RangeInclusive<u32> {
        let right = RightLedger.quantities(kind);
        right.start() + u32::from(kind == BLOCK)..=*right.end()
    }
}

pub struct PriceLimitsOneLess;

impl CallRules for PriceLimitsOneLess {
    fn is_price(&self, value: i128) -> bool {
        RightLedger.is_price(value - 1) && RightLedger.is_price(value + 1)
    }
}

pub struct SpreadTradesTicked;

impl RefusalRules for SpreadTradesTicked {
    fn kind_is_ticked(&self, kind: u8) -> bool {
        kind == SPREAD || RightLedger.kind_is_ticked(kind)
    }
}

pub struct EqualSidesStand;

impl RefusalRules for EqualSidesStand {
    fn is_crossed(&self, market: Market) -> bool {
        RightLedger.is_crossed(market) && market.bid != market.offer
    }
}

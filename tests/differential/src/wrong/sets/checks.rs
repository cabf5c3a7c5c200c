//! Wrong refusals of a set: their order, its length, and a halt.

use reference::call::Trade;
use reference::refusal::{trade_is_outside_field, FIELD};
use reference::rules::{RightLedger, Rules, SetRules};
use reference::sets::SetCheck;
use std::cmp::Reverse;
use std::ops::RangeInclusive;

/// Whether the list by itself meets a check, none where the book decides.
fn met_by_list(check: SetCheck, trades: &[Trade]) -> Option<bool> {
    match check {
        SetCheck::Length => Some(!RightLedger.is_length(trades.len())),
        SetCheck::Field(place) => Some(trade_is_outside_field(trades[place], Rules::RIGHT)),
        SetCheck::Account(place) => Some(Rules::RIGHT.refusals.refuses_account(trades[place])),
        SetCheck::Day | SetCheck::Halt | SetCheck::Volume(_) | SetCheck::Position(_) => None,
    }
}

/// The first number is given before the second. Where the list by itself meets a check between the two,
/// the order is the right one, so that nothing but these two tells the ledger apart.
pub struct Before(u8, u8);

impl SetRules for Before {
    fn checking_order(&self, trades: &[Trade]) -> Vec<SetCheck> {
        let mut order = RightLedger.checking_order(trades);
        let place = |number| {
            let can_be_met = |check: &SetCheck| {
                check.number() == number && met_by_list(*check, trades) != Some(false)
            };
            order.iter().position(can_be_met)
        };
        let (Some(to), Some(from)) = (place(self.0), place(self.1)) else {
            return order;
        };
        let mut between = order[from + 1..to].iter();
        if !between.any(|check| met_by_list(*check, trades) == Some(true)) {
            order[from..=to].rotate_left(1);
        }
        order
    }
}

pub static HALT_BEFORE_DAY: Before = Before(4, 3);
pub static LENGTH_BEFORE_DAY: Before = Before(13, 3);
pub static FIELD_BEFORE_DAY: Before = Before(5, 3);
pub static LENGTH_BEFORE_HALT: Before = Before(13, 4);
pub static FIELD_BEFORE_HALT: Before = Before(5, 4);
pub static ACCOUNT_BEFORE_HALT: Before = Before(12, 4);
pub static VOLUME_BEFORE_HALT: Before = Before(7, 4);
pub static POSITION_BEFORE_HALT: Before = Before(8, 4);
pub static FIELD_BEFORE_LENGTH: Before = Before(5, 13);
pub static ACCOUNT_BEFORE_LENGTH: Before = Before(12, 13);
pub static VOLUME_BEFORE_LENGTH: Before = Before(7, 13);
pub static POSITION_BEFORE_LENGTH: Before = Before(8, 13);
pub static VOLUME_BEFORE_FIELD: Before = Before(7, 5);
pub static POSITION_BEFORE_FIELD: Before = Before(8, 5);
pub static VOLUME_BEFORE_ACCOUNT: Before = Before(7, 12);
pub static POSITION_BEFORE_ACCOUNT: Before = Before(8, 12);
pub static POSITION_BEFORE_VOLUME: Before = Before(8, 7);

/// Its checks of single trades stand in another order.
pub struct OfTrades(fn(&mut [SetCheck]));

impl SetRules for OfTrades {
    fn checking_order(&self, trades: &[Trade]) -> Vec<SetCheck> {
        let mut order = RightLedger.checking_order(trades);
        let first = order.iter().position(|check| place(*check).is_some());
        let first = first.unwrap_or(0);
        self.0(&mut order[first..first + 2 * trades.len()]);
        order
    }
}

/// Of the trade that it looks at by itself.
fn place(check: SetCheck) -> Option<usize> {
    match check {
        SetCheck::Field(place) | SetCheck::Account(place) => Some(place),
        _ => None,
    }
}

fn is_of_field(check: &SetCheck) -> bool {
    matches!(check, SetCheck::Field(_))
}

pub static ACCOUNT_BEFORE_FIELD: OfTrades =
    OfTrades(|checks| checks.sort_by_key(|check| (place(*check), is_of_field(check))));
pub static ALL_FIELDS_FIRST: OfTrades =
    OfTrades(|checks| checks.sort_by_key(|check| !is_of_field(check)));
pub static ALL_ACCOUNTS_FIRST: OfTrades = OfTrades(|checks| checks.sort_by_key(is_of_field));
/// The last bad trade in list order gives its number.
pub static LAST_BAD_TRADE: OfTrades =
    OfTrades(|checks| checks.sort_by_key(|check| (Reverse(place(*check)), !is_of_field(check))));

/// Each trade meets these limits too before the next one is looked at.
pub struct LimitsOfEach(fn(usize) -> Vec<SetCheck>);

impl SetRules for LimitsOfEach {
    fn checking_order(&self, trades: &[Trade]) -> Vec<SetCheck> {
        let right = RightLedger.checking_order(trades).into_iter();
        let with_limits = |check| match check {
            SetCheck::Account(place) => [vec![check], self.0(place + 1)].concat(),
            _ => vec![check],
        };
        right.flat_map(with_limits).collect()
    }
}

pub static JUDGED_ONE_BY_ONE: LimitsOfEach =
    LimitsOfEach(|count| vec![SetCheck::Volume(count), SetCheck::Position(count)]);
pub static VOLUME_ONE_BY_ONE: LimitsOfEach = LimitsOfEach(|count| vec![SetCheck::Volume(count)]);
pub static POSITION_ONE_BY_ONE: LimitsOfEach =
    LimitsOfEach(|count| vec![SetCheck::Position(count)]);

/// A halted book refuses these lists alone.
pub struct InHalt(fn(&[Trade]) -> bool);

impl SetRules for InHalt {
    fn halt_forbids(&self, trades: &[Trade], halted: bool) -> bool {
        halted && self.0(trades)
    }
}

pub static SET_ACCEPTED_IN_HALT: InHalt = InHalt(|_| false);
pub static EMPTY_SET_NOT_HALTED: InHalt = InHalt(|trades| !trades.is_empty());
pub static LONG_SET_NOT_HALTED: InHalt = InHalt(|trades| trades.len() <= 500);

/// Its lengths are these.
pub struct Lengths(RangeInclusive<usize>);

impl SetRules for Lengths {
    fn is_length(&self, trades: usize) -> bool {
        self.0.contains(&trades)
    }
}

pub static SET_OF_500_REFUSED: Lengths = Lengths(1..=499);
pub static SET_OF_501_ACCEPTED: Lengths = Lengths(1..=501);
pub static EMPTY_SET_ACCEPTED: Lengths = Lengths(0..=500);

pub struct LengthGiven5;

impl SetRules for LengthGiven5 {
    fn number(&self, check: SetCheck) -> u8 {
        match check {
            SetCheck::Length => FIELD,
            _ => RightLedger.number(check),
        }
    }
}

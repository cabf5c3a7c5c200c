//! Wrong fixes of final dates: which are refused, and the price.

use reference::call::Call;
use reference::fraction::Fraction;
use reference::history::{Day, History};
use reference::refusal::Check;
use reference::rules::{CallRules, ExpiryRules, RefusalRules, RightLedger, Rules};
use reference::settlement::price_by_rules;

/// It takes these fixes on a date of the other kind too.
pub struct WrongKindAccepted(fn(Call) -> bool);

impl ExpiryRules for WrongKindAccepted {
    fn fix_is_of_wrong_kind(&self, day: &Day, fix: Call) -> bool {
        RightLedger.fix_is_of_wrong_kind(day, fix) && !self.0(fix)
    }
}

pub static FIX_ON_FINAL_DATE: WrongKindAccepted =
    WrongKindAccepted(|fix| matches!(fix, Call::Fix(_)));
pub static FINAL_FIX_ON_ANOTHER_DATE: WrongKindAccepted =
    WrongKindAccepted(|fix| matches!(fix, Call::FinalFix(_)));

pub struct FinalFixTwice;

impl RefusalRules for FinalFixTwice {
    fn fix_is_second(&self, day: &Day, call: Call) -> bool {
        RightLedger.fix_is_second(day, call) && !matches!(call, Call::FinalFix(_))
    }
}

/// The value of this kind of fix is looked at first.
pub struct FieldBeforeDay(fn(Call) -> bool);

impl RefusalRules for FieldBeforeDay {
    fn checking_order(&self, call: Call) -> &'static [Check] {
        match self.0(call) {
            true => &[Check::Field, Check::Day, Check::NoPrice],
            false => RightLedger.checking_order(call),
        }
    }
}

pub static FINAL_FIX_FIELD_BEFORE_DAY: FieldBeforeDay =
    FieldBeforeDay(|call| matches!(call, Call::FinalFix(_)));
pub static FIX_FIELD_BEFORE_DAY: FieldBeforeDay =
    FieldBeforeDay(|call| matches!(call, Call::Fix(_)));

/// These are hourly values.
pub struct HourlyValues(fn(u32) -> bool);

impl ExpiryRules for HourlyValues {
    fn is_hourly_value(&self, value: u32, _rules: &dyn CallRules) -> bool {
        self.0(value)
    }

    fn final_price(&self, history: &History, day: usize, hourly: u32, rules: Rules) -> i128 {
        match hourly {
            0 => price_by_rules(history, day, 0, rules).unwrap_or(0),
            _ => RightLedger.final_price(history, day, hourly, rules),
        }
    }
}

fn is_price(value: u32) -> bool {
    RightLedger.is_price(value.into())
}

pub static ZERO_IS_NO_VALUE: HourlyValues = HourlyValues(|value| value == 0 || is_price(value));
pub static ANY_VALUE: HourlyValues = HourlyValues(|_| true);
pub static TICKED_VALUES_ALONE: HourlyValues =
    HourlyValues(|value| RightLedger.is_ticked_price(value.into()));

/// The number of dimes.
pub struct Dimes(fn(Fraction) -> i128);

impl ExpiryRules for Dimes {
    fn dimes(&self, exact: Fraction, _rules: &dyn CallRules) -> i128 {
        self.0(exact)
    }
}

fn half() -> Fraction {
    Fraction::new(1, 2)
}

pub static DIMES_TIE_UP: Dimes = Dimes(|exact| exact.plus(half()).floor());
pub static DIMES_TIE_DOWN: Dimes = Dimes(|exact| -exact.times(-1).plus(half()).floor());
pub static DIMES_TIE_ODD: Dimes = Dimes(|exact| {
    let one = Fraction::whole(1);
    RightLedger.half_even(exact.plus(one)) - 1
});
pub static DIMES_CUT: Dimes = Dimes(Fraction::floor);
pub static DIMES_RAISED: Dimes = Dimes(|exact| -exact.times(-1).floor());

/// The settlement price of a final date.
pub struct FinalPrice(fn(&History, usize, u32, Rules) -> i128);

impl ExpiryRules for FinalPrice {
    fn final_price(&self, history: &History, day: usize, hourly: u32, rules: Rules) -> i128 {
        self.0(history, day, hourly, rules)
    }
}

pub static VALUE_NOT_ROUNDED: FinalPrice = FinalPrice(|_, _, hourly, _| hourly.into());
pub static PRICE_BY_FOUR_RULES: FinalPrice = FinalPrice(|history, day, hourly, rules| {
    let by_rules = price_by_rules(history, day, 0, rules);
    by_rules.unwrap_or_else(|| RightLedger.final_price(history, day, hourly, rules))
});

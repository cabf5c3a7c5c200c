//! Wrong roundings.

use reference::fraction::Fraction;
use reference::rules::{CallRules, RightLedger};
use reference::terms::NANO;

pub struct TieUp;

impl CallRules for TieUp {
    fn tie(&self, below: i128) -> i128 {
        below + 1
    }
}

pub struct TieAwayFromZero;

impl CallRules for TieAwayFromZero {
    fn tie(&self, below: i128) -> i128 {
        below + i128::from(below >= 0)
    }
}

pub struct TieTowardZeroForNegatives;

impl CallRules for TieTowardZeroForNegatives {
    fn tie(&self, below: i128) -> i128 {
        match below < 0 {
            true => below + 1,
            false => RightLedger.tie(below),
        }
    }
}

pub struct TieAwayFromZeroForNegatives;

impl CallRules for TieAwayFromZeroForNegatives {
    fn tie(&self, below: i128) -> i128 {
        match below < 0 {
            true => below,
            false => RightLedger.tie(below),
        }
    }
}

/// It compares the remainder with half of the divisor, which it cuts: 4 / 3 is a tie.
pub struct HalfOfDivisorCut;

impl CallRules for HalfOfDivisorCut {
    fn half_even(&self, value: Fraction) -> i128 {
        let rounded = RightLedger.half_even(value);
        let quotient = RoundTowardZero.half_even(value);
        let remainder = value.numerator() - quotient * value.denominator();
        match remainder != 0 && remainder.abs() == value.denominator() / 2 {
            true => quotient + remainder.signum() * (quotient % 2).abs(),
            false => rounded,
        }
    }
}

pub struct RoundTowardZero;

impl CallRules for RoundTowardZero {
    fn half_even(&self, value: Fraction) -> i128 {
        match value.floor() < 0 {
            true => -value.times(-1).floor(),
            false => value.floor(),
        }
    }
}

/// A value below zero goes toward zero: only a remainder above zero is compared with half of the divisor.
pub struct RoundNegativesTowardZero;

impl CallRules for RoundNegativesTowardZero {
    fn half_even(&self, value: Fraction) -> i128 {
        match value.floor() < 0 {
            true => RoundTowardZero.half_even(value),
            false => RightLedger.half_even(value),
        }
    }
}

/// Where the quotient is 0, the next whole number is 1 for a negative value too.
pub struct NextByQuotientSign;

impl CallRules for NextByQuotientSign {
    fn half_even(&self, value: Fraction) -> i128 {
        let rounded = RightLedger.half_even(value);
        match RoundTowardZero.half_even(value) {
            0 => rounded.abs(),
            _ => rounded,
        }
    }
}

/// Its bases are exact to a millionth of a nano.
pub struct BasisNotRounded;

impl CallRules for BasisNotRounded {
    fn basis(&self, futures_price: i128, index: u32) -> Fraction {
        const PARTS: i128 = 1_000_000;
        let index = i128::from(index);
        let exact = Fraction::new((futures_price - index) * NANO * PARTS, index);
        Fraction::new(self.half_even(exact), PARTS)
    }
}

pub struct RateNotRounded;

impl CallRules for RateNotRounded {
    fn rate(&self, exact: Fraction) -> Fraction {
        exact
    }
}

pub struct SettlementPriceToTick;

impl CallRules for SettlementPriceToTick {
    fn average_price(&self, gross: i128, contracts: i128) -> i128 {
        10 * self.half_even(Fraction::new(gross, contracts * 10))
    }
}

#[cfg(test)]
mod tests {
    use super::*;

    #[test]
    fn wrong_roundings_differ_where_they_say() {
        let halves = |rules: &dyn CallRules, numerators: [i128; 4]| {
            numerators.map(|n| rules.half_even(Fraction::new(n, 2)))
        };
        assert_eq!(halves(&TieUp, [-5, -1, 1, 5]), [-2, 0, 1, 3]);
        assert_eq!(halves(&TieAwayFromZero, [-5, -1, 1, 5]), [-3, -1, 1, 3]);
        let toward_zero = halves(&TieTowardZeroForNegatives, [-7, -5, 5, 7]);
        assert_eq!(toward_zero, [-3, -2, 2, 4]);
        let away = halves(&TieAwayFromZeroForNegatives, [-7, -5, -1, 1]);
        assert_eq!(away, [-4, -3, -1, 0]);
        assert_eq!(halves(&RoundTowardZero, [-5, -4, 4, 5]), [-2, -2, 2, 2]);
        let thirds = |rules: &dyn CallRules, numerators: [i128; 6]| {
            numerators.map(|n| rules.half_even(Fraction::new(n, 3)))
        };
        let numerators = [-5, -3, -2, -1, 2, 5];
        let toward_zero = thirds(&RoundNegativesTowardZero, numerators);
        assert_eq!(toward_zero, [-1, -1, 0, 0, 1, 2]);
        let cut = thirds(&HalfOfDivisorCut, [-5, -4, -1, 1, 4, 8]);
        assert_eq!(cut, [-2, -2, 0, 0, 2, 3]);
        let past_zero = thirds(&NextByQuotientSign, numerators);
        assert_eq!(past_zero, [-2, -1, 1, 0, 1, 2]);
    }
}

//! Exact fractions.

use std::cmp::Ordering;

/// A fraction of whole numbers with a denominator above zero. What rounding needs is inlined, since
/// each ledger's rules are compiled in the package that states it.
#[derive(Clone, Copy, Debug, PartialEq, Eq)]
pub struct Fraction {
    numerator: i128,
    denominator: i128,
}

impl Fraction {
    #[inline]
    pub fn new(numerator: i128, denominator: i128) -> Self {
        assert!(denominator > 0, "a denominator is above zero");
        Fraction {
            numerator,
            denominator,
        }
    }

    #[inline]
    pub fn numerator(self) -> i128 {
        self.numerator
    }

    /// As it was given: a fraction is not reduced.
    #[inline]
    pub fn denominator(self) -> i128 {
        self.denominator
    }

    #[inline]
    pub fn whole(number: i128) -> Self {
        Fraction::new(number, 1)
    }

    /// Like denominators stay as they are, so that a long sum doesn't outgrow its numbers.
    #[inline]
    pub fn plus(self, other: Self) -> Self {
        let (left, right) = (self.denominator, other.denominator);
        match left == right {
            true => Fraction::new(self.numerator + other.numerator, left),
            false => Fraction::new(
                self.numerator * right + other.numerator * left,
                left * right,
            ),
        }
    }

    #[inline]
    pub fn times(self, factor: i128) -> Self {
        Fraction::new(self.numerator * factor, self.denominator)
    }

    pub fn divided_by(self, divisor: i128) -> Self {
        Fraction::new(self.numerator, self.denominator * divisor)
    }

    /// This fraction, or the nearer end of ±limit when it lies beyond.
    pub fn clamped(self, limit: i128) -> Self {
        let end = limit * self.denominator;
        Fraction::new(self.numerator.clamp(-end, end), self.denominator)
    }

    /// The largest whole number that isn't above this fraction.
    #[inline]
    pub fn floor(self) -> i128 {
        self.numerator.div_euclid(self.denominator)
    }

    #[inline]
    pub fn compare(self, other: Self) -> Ordering {
        let (left, right) = (self.denominator, other.denominator);
        (self.numerator * right).cmp(&(other.numerator * left))
    }
}

#[cfg(test)]
mod tests {
    use super::*;

    #[test]
    fn sums_of_like_and_unlike_denominators() {
        let (half, third) = (Fraction::new(1, 2), Fraction::new(-1, 3));
        assert_eq!(half.plus(half), Fraction::new(2, 2));
        assert_eq!(half.plus(third), Fraction::new(1, 6));
    }

    #[test]
    fn floors_and_comparisons_on_both_sides_of_zero() {
        let floors = [-4, -3, -1, 0, 1, 3].map(|n| Fraction::new(n, 3).floor());
        assert_eq!(floors, [-2, -1, -1, 0, 0, 1]);
        let (half, third) = (Fraction::new(-1, 2), Fraction::new(-1, 3));
        assert_eq!(half.compare(third), Ordering::Less);
        assert_eq!(half.compare(Fraction::new(-2, 4)), Ordering::Equal);
    }
}

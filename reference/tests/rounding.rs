//! The divisions of the shared table, and what they are rounded to.

use reference::fraction::Fraction;
use reference::rules::{CallRules, RightLedger};

/// To the nearest whole number, a tie to the one farther from zero.
fn away(value: i128, divisor: i128) -> i128 {
    value.signum() * ((2 * value.abs() + divisor) / (2 * divisor))
}

#[test]
fn the_shared_table() {
    let text = include_str!("../../tests/rounding/table.txt");
    let mut rows = 0;
    for line in text
        .lines()
        .filter(|line| !line.is_empty() && !line.starts_with('#'))
    {
        let numbers = line.split(' ').map(|word| word.parse().expect("a number"));
        let numbers: Vec<i128> = numbers.collect();
        let [value, divisor, quotient, remainder, even, farther] = numbers[..] else {
            panic!("six numbers: {line}");
        };
        assert_eq!(quotient * divisor + remainder, value, "{line}");
        assert!(remainder.abs() < divisor, "{line}");
        assert!(remainder * value >= 0, "{line}");
        let exact = Fraction::new(value, divisor);
        assert_eq!(RightLedger.half_even(exact), even, "{line}");
        assert_eq!(away(value, divisor), farther, "{line}");
        rows += 1;
    }
    assert_eq!(rows, 56);
}

//! Basis, rate and amount in whole numbers.

use std::hint::select_unpredictable;

const NANO: i64 = 1_000_000_000;
/// The clamp in nano.
const CLAMP: i64 = 2_000_000;
/// Nano × cents × hundredths of a coin in one cent.
const AMOUNT_DIVISOR: i64 = 100_000_000_000;

/// The quotient's nearest whole number, a tie to the even one. It is decided on the remainder, which keeps
/// its sign. The divisor is above 0 and at most 2^62, so that twice the remainder fits. Neither sign nor step is
/// predictable, so neither becomes a branch.
#[inline]
fn half_even(dividend: i64, divisor: i64) -> i64 {
    let (quotient, remainder) = (dividend / divisor, dividend % divisor);
    let twice = remainder + remainder;
    let farther_by = select_unpredictable(remainder < 0, divisor + twice, divisor - twice);
    let step = i64::from((farther_by < 0) | ((farther_by == 0) & (quotient % 2 != 0)));
    select_unpredictable(remainder < 0, quotient - step, quotient + step)
}

/// The basis in nano; the index isn't 0.
#[inline]
pub fn basis(futures_price: u32, index: u32) -> i64 {
    let (futures_price, index) = (i64::from(futures_price), i64::from(index));
    match index {
        0 => 0,
        _ => half_even((futures_price - index) * NANO, index),
    }
}

/// The clamped rate of this many valid minutes.
pub fn rate(valid: u32, weighted: i64) -> i64 {
    let count = i64::from(valid);
    match count * (count + 1) / 2 {
        0 => 0,
        weights => half_even(weighted, weights).clamp(-CLAMP, CLAMP),
    }
}

/// The amount in cents per contract.
pub fn amount(rate: i64, price: u32, size: i64) -> i64 {
    half_even(-rate * i64::from(price) * size, AMOUNT_DIVISOR)
}

/// The average price of a sum of prices, each taken as often as it weighs; none without weight.
pub fn average(sum: u64, weight: u32) -> Option<u32> {
    match weight {
        0 => None,
        _ => Some(half_even(sum as i64, weight.into()) as u32),
    }
}

/// The value to the nearest 10 cents, a tie to the even dime.
pub fn to_dime(value: u32) -> u32 {
    half_even(value.into(), 10) as u32 * 10
}

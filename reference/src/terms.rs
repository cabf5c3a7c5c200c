//! Units, and the terms of a product.

/// 02-5: "Accounts become two-byte numbers, 0 to 1,023."
pub const ACCOUNTS: usize = 1_024;

/// "A rate is in nano (10^-9)."
pub const NANO: i128 = 1_000_000_000;

/// Nano × cents × hundredths of a coin in one cent.
pub const AMOUNT_DIVISOR: i128 = 100_000_000_000;

/// "Cash is in hundredths of a cent."
pub const CASH_PER_CENT: i128 = 100;

/// In cents. 02-7: "the nearest 10 cents".
pub const DIME: i128 = 10;

/// As a day of a week from Monday, 0.
pub const FRIDAY: u32 = 4;

/// 02-1: the length of day "sets 1,320 or 1,140".
pub const FULL_DAY: u16 = 1_320;
pub const SHORT_DAY: u16 = 1_140;

/// 02-7: a final date has "length 1,020".
pub const FINAL_DAY: u16 = 1_020;

/// 02-4: the times of quotes are "0 to 59,999".
pub const LATEST_TIME: u16 = 59_999;

/// 02-4: when a minute ends, in milliseconds: "60,000".
pub const END_OF_MINUTE: u16 = 60_000;

#[derive(Clone, Copy, Debug, PartialEq, Eq)]
pub struct Terms {
    /// In nano.
    pub clamp: i128,
    /// A spread times this is at most bid plus offer: 400 stands for 0.005 of the midpoint.
    pub spread_factor: i128,
}

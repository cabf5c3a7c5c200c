//! What is a price, in cents.

const LEAST_PRICE: u32 = 5_000;
const LARGEST_PRICE: u32 = 50_000_000;
pub const TICK: u32 = 10;

pub fn is_price(value: u32) -> bool {
    (LEAST_PRICE..=LARGEST_PRICE).contains(&value)
}

pub fn is_ticked(value: u32) -> bool {
    is_price(value) && value.is_multiple_of(TICK)
}

//! A trade, and the tests of its own fields.

use crate::price::{is_price, TICK};
use dayformat::kind::{BLOCK, SIMPLE, SPREAD};

pub const ACCOUNTS: usize = 1_024;
const MOST_QUANTITY: u32 = 100_000;
const LEAST_BLOCK: u32 = 250;

#[derive(Clone, Copy)]
pub struct Trade {
    pub buyer: u16,
    pub seller: u16,
    pub kind: u8,
    pub quantity: u32,
    pub price: u32,
}

impl Trade {
    #[inline(always)]
    pub fn is_in_field(self) -> bool {
        (1..=MOST_QUANTITY).contains(&self.quantity)
            && is_price(self.price)
            && match self.kind {
                SIMPLE => self.price.is_multiple_of(TICK),
                SPREAD => true,
                BLOCK => LEAST_BLOCK <= self.quantity,
                _ => false,
            }
    }

    /// Whether buyer and seller are accounts.
    pub fn has_accounts(self) -> bool {
        usize::from(self.buyer) < ACCOUNTS && usize::from(self.seller) < ACCOUNTS
    }

    /// Buyer and seller as places of a column.
    #[inline(always)]
    pub fn accounts(self) -> (usize, usize) {
        (self.buyer.into(), self.seller.into())
    }
}

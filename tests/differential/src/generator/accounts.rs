//! Accounts, and trades by both tags.

use super::Generator;
use dayformat::kind;
use reference::call::Account;
use reference::terms::ACCOUNTS;

/// Few accounts, so that they meet often: both ends of one byte and of the range, some with the low byte
/// of another.
const NAMED: [Account; 8] = [0, 3, 7, 255, 256, 259, 1_022, 1_023];
/// The first of them have one byte.
const NAMED_OF_ONE_BYTE: usize = 4;

/// Beside the last one, at the end of two bytes, and with the low byte or the low ten bits of
/// one that is named.
const REFUSED: [Account; 6] = [1_024, 1_027, 1_279, 1_283, 2_047, u16::MAX];

/// The largest quantity of a trade.
pub const LARGEST: u32 = 100_000;

/// Both accounts in one byte each, if they fit.
fn in_one_byte(accounts: (Account, Account)) -> Option<(u8, u8)> {
    Some((accounts.0.try_into().ok()?, accounts.1.try_into().ok()?))
}

impl Generator {
    pub fn account(&mut self) -> Account {
        match self.random.chance(95) {
            true => self.random.pick(&NAMED),
            false => self.any_account(),
        }
    }

    pub fn any_account(&mut self) -> Account {
        self.random.below(ACCOUNTS as u32) as Account
    }

    /// None of those that meet often.
    pub fn other_account(&mut self) -> Account {
        (self.random.between(20, 90) + 256 * self.random.below(4)) as Account
    }

    /// Two accounts that differ, often both of one byte.
    pub fn two_accounts(&mut self) -> (Account, Account) {
        let count = self.random.pick(&[NAMED_OF_ONE_BYTE, NAMED.len()]) as u32;
        let first = self.random.below(count);
        let second = (first + 1 + self.random.below(count - 1)) % count;
        (NAMED[first as usize], NAMED[second as usize])
    }

    pub fn refused_account(&mut self) -> Account {
        self.random.pick(&REFUSED)
    }

    /// Two accounts of which one is refused, or both.
    pub fn refused_accounts(&mut self) -> (Account, Account) {
        let (refused, other) = (self.refused_account(), self.account());
        match self.random.below(5) {
            0 => (refused, refused),
            1 | 2 => (refused, other),
            _ => (other, refused),
        }
    }

    /// By tag 10, or mostly by tag 1 where the accounts have one byte.
    pub fn trade(&mut self, accounts: (Account, Account), kind: u8, quantity: u32, price: u32) {
        let in_one_byte = in_one_byte(accounts).filter(|_| self.random.chance(75));
        match in_one_byte {
            Some(accounts) => self.file.trade(accounts, kind, quantity, price),
            None => self.file.two_byte_trade(accounts, kind, quantity, price),
        };
    }

    /// A trade of any kind with values in their fields, now and then of a refused account.
    pub fn any_trade(&mut self) {
        let accounts = self.accounts_of_any_trade();
        self.trade_of_any_kind(accounts);
    }

    /// Mostly two that differ, now and then one twice or a refused one.
    pub fn accounts_of_any_trade(&mut self) -> (Account, Account) {
        let accounts = match self.random.below(100) {
            0..=13 => (self.account(), self.account()),
            14..=16 => self.refused_accounts(),
            _ => self.two_accounts(),
        };
        match self.random.chance(8) {
            true => (accounts.0, accounts.0),
            false => accounts,
        }
    }

    pub fn trade_of_refused_account(&mut self) {
        let accounts = self.refused_accounts();
        self.trade_of_any_kind(accounts);
    }

    pub fn trade_of_any_kind(&mut self, accounts: (Account, Account)) {
        let (kind, quantity, price) = self.any_kind();
        self.trade(accounts, kind, quantity, price);
    }

    /// A kind with a quantity and a price in their fields.
    pub fn any_kind(&mut self) -> (u8, u32, u32) {
        match self.random.below(5) {
            0 => (kind::SPREAD, self.random.between(1, 40), self.near_price()),
            1 => (
                kind::BLOCK,
                self.random.between(250, 900),
                self.near_price(),
            ),
            _ => (
                kind::SIMPLE,
                self.random.between(1, 40),
                self.near_ticked_price(),
            ),
        }
    }

    /// A kind, a quantity and a price of which one is outside its field.
    pub fn outside_field(&mut self) -> (u8, u32, u32) {
        let price = self.near_ticked_price();
        self.random.pick(&[
            (3, 1, price),
            (kind::SIMPLE, 0, price),
            (kind::SIMPLE, 1, price + 1),
            (kind::SPREAD, LARGEST + 1, price),
            (kind::SPREAD, 1, 4_999),
            (kind::BLOCK, 249, price),
        ])
    }
}

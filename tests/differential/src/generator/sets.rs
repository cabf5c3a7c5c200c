//! Lists of trades for sets.

use super::Generator;
use dayformat::kind::{SIMPLE, SPREAD};
use dayformat::{set, Writer};
use reference::call::{Account, Trade};

pub fn in_set(accounts: (Account, Account), kind: u8, quantity: u32, price: u32) -> Trade {
    let (buyer, seller) = accounts;
    Trade {
        buyer,
        seller,
        kind,
        quantity,
        price,
        tag: set::TAG,
    }
}

impl Generator {
    pub fn set(&mut self, trades: &[Trade]) {
        let mut records = Writer::new();
        for trade in trades {
            let accounts = (trade.buyer, trade.seller);
            records.two_byte_trade(accounts, trade.kind, trade.quantity, trade.price);
        }
        self.file.set(&records);
    }

    /// The trades by a set or one by one.
    pub fn set_or_singly(&mut self, trades: &[Trade]) {
        if self.random.chance(50) {
            return self.set(trades);
        }
        for trade in trades {
            let accounts = (trade.buyer, trade.seller);
            self.trade(accounts, trade.kind, trade.quantity, trade.price);
        }
    }

    fn in_set_of_any_kind(&mut self, accounts: (Account, Account)) -> Trade {
        let (kind, quantity, price) = self.any_kind();
        in_set(accounts, kind, quantity, price)
    }

    /// A trade with every value in its field, now and then with oneself.
    pub fn good_trade(&mut self) -> Trade {
        let accounts = match self.random.below(10) {
            0 => (self.any_account(), self.any_account()),
            1 => [self.account(); 2].into(),
            _ => self.two_accounts(),
        };
        self.in_set_of_any_kind(accounts)
    }

    /// A trade of accounts that seldom meet those of other trades.
    pub fn other_trade(&mut self) -> Trade {
        let accounts = (self.other_account(), self.other_account());
        self.in_set_of_any_kind(accounts)
    }

    /// A trade with 5, with 12 or with both.
    fn bad_trade(&mut self) -> Trade {
        let bad = self.random.below(5);
        let accounts = match bad {
            0 | 1 => self.two_accounts(),
            _ => self.refused_accounts(),
        };
        let (kind, quantity, price) = match bad {
            2 | 3 => self.any_kind(),
            _ => self.outside_field(),
        };
        in_set(accounts, kind, quantity, price)
    }

    /// A list of few trades that is accepted unless the book is halted or accounts are at their limits.
    pub fn good_list(&mut self) -> Vec<Trade> {
        match self.random.below(6) {
            0 => self.allocation(),
            1 => vec![self.good_trade(); self.random.between(2, 4) as usize],
            _ => {
                let count = self.random.between(1, 5);
                (0..count).map(|_| self.good_trade()).collect()
            }
        }
    }

    /// An order bought by one account at neighbouring prices and passed on to others at one.
    fn allocation(&mut self) -> Vec<Trade> {
        let (broker, other) = self.two_accounts();
        let price = self.near_ticked_price().min(49_999_000);
        let clients = self.random.between(1, 4);
        let mut trades = vec![
            in_set((broker, other), SIMPLE, clients, price),
            in_set((broker, other), SIMPLE, clients, price + 10),
        ];
        let (kind, price) = self.random.pick(&[(SIMPLE, price), (SPREAD, price + 5)]);
        for _ in 0..clients {
            let client = self.any_account();
            trades.push(in_set((client, broker), kind, 2, price));
        }
        trades
    }

    /// The list with one to three bad trades in it: first, last or between.
    pub fn with_bad_trades(&mut self, trades: &[Trade]) -> Vec<Trade> {
        let mut trades = trades.to_vec();
        for _ in 0..self.random.pick(&[1, 1, 2, 2, 3]) {
            let bad = self.bad_trade();
            self.insert(&mut trades, bad);
        }
        trades
    }

    /// The list with up to three trades of other accounts in it.
    pub fn with_other_trades(&mut self, trades: &[Trade]) -> Vec<Trade> {
        let mut trades = trades.to_vec();
        for _ in 0..self.random.below(4) {
            let other = self.other_trade();
            self.insert(&mut trades, other);
        }
        trades
    }

    fn insert(&mut self, trades: &mut Vec<Trade>, trade: Trade) {
        let last = trades.len();
        let between = self.random.below(last as u32 + 1) as usize;
        trades.insert(self.random.pick(&[0, between, between, last]), trade);
    }

    /// The list among trades of other accounts, so many in all.
    pub fn lengthened(&mut self, trades: &[Trade], length: usize) -> Vec<Trade> {
        let more = length.saturating_sub(trades.len());
        let between = self.random.below(more as u32 + 1) as usize;
        let before = self.random.pick(&[0, between, more]);
        let mut list: Vec<Trade> = (0..more).map(|_| self.other_trade()).collect();
        let after = list.split_off(before);
        [list, trades.to_vec(), after].concat()
    }
}

//! The files that are timed. Every record of them is accepted.

use crate::book::{FULL_DAY, SHORT_DAY};
use crate::market::MINUTE;
use dayformat::{kind, tag, Writer};
use differential::random::Random;

const SIZE: u8 = 10;
const LEVEL: u32 = 8_400_000;

pub struct Input {
    pub name: &'static str,
    pub size: u8,
    pub file: Vec<u8>,
    pub records: u64,
    pub closes: u64,
}

/// The files of trades with two-byte accounts, and how many accounts are active in each. They differ
/// in nothing else.
pub const TWO_BYTE_TRADES: [(&str, u32); 2] = [
    ("20 days of 5,280 two-byte trades, 256 accounts", 256),
    ("20 days of 5,280 trades, 1,024 accounts", 1_024),
];

pub fn all() -> Vec<Input> {
    let [few_accounts, all_accounts] = TWO_BYTE_TRADES
        .map(|(name, accounts)| days(name, 20, traded_minute(4, tag::TWO_BYTE_TRADE, accounts)));
    vec![
        days("a day of minute ends, market quoted", 1, quoted_minute),
        days("a day of minute ends, no market", 1, empty_minute),
        days(
            "a day of 100,320 trades, 16 accounts",
            1,
            traded_minute(76, tag::TRADE, 16),
        ),
        days(
            "20 days of 5,280 trades, 256 accounts",
            20,
            traded_minute(4, tag::TRADE, 256),
        ),
        few_accounts,
        all_accounts,
        days("a day with four quotes a minute", 1, untimed_minute),
        day_of_midpoints("a day with four timed quotes a minute", timed_minute),
        days("2,600 days, market quoted", 2_600, quoted_minute),
        days("2,600 days, no market", 2_600, empty_minute),
    ]
}

/// A file under way, with the records so far.
struct File {
    random: Random,
    writer: Writer,
    records: u64,
    closes: u64,
}

impl File {
    fn new() -> Self {
        File {
            random: Random::new(1),
            writer: Writer::new(),
            records: 0,
            closes: 0,
        }
    }

    fn named(self, name: &'static str) -> Input {
        Input {
            name,
            size: SIZE,
            file: self.writer.bytes,
            records: self.records,
            closes: self.closes,
        }
    }

    /// An index or price near the level.
    fn near(&mut self) -> u32 {
        LEVEL - 10_000 + self.random.below(20_001)
    }

    fn length_of_day(&mut self, minutes: u32) {
        self.writer.length_of_day(minutes as u16);
        self.records += 1;
    }

    fn minute_end(&mut self) {
        let index = self.near();
        self.writer.minute_ends(1, index);
        self.records += 1;
    }

    fn quote(&mut self) {
        let bid = self.near() / 10 * 10;
        self.writer.quote(bid, bid + 1_000);
        self.records += 1;
    }

    fn timed_quote(&mut self, time: u32) {
        let bid = self.near() / 10 * 10;
        self.writer.timed_quote(time as u16, bid, bid + 1_000);
        self.records += 1;
    }

    fn fix(&mut self, set_price: u32) {
        self.writer.fix(set_price);
        self.records += 1;
    }

    fn close(&mut self) {
        self.writer.close();
        self.records += 1;
        self.closes += 1;
    }

    /// A trade between two of so many accounts, by the record with this tag.
    fn trade(&mut self, tag: u8, accounts: u32) {
        let buyer = self.random.below(accounts);
        let seller = (buyer + 1 + self.random.below(accounts - 1)) % accounts;
        self.trade_between(tag, buyer, seller);
    }

    fn trade_between(&mut self, tag: u8, buyer: u32, seller: u32) {
        let (quantity, price) = (self.random.between(1, 20), self.near() / 10 * 10);
        if tag == tag::TWO_BYTE_TRADE {
            let accounts = (buyer as u16, seller as u16);
            self.writer
                .two_byte_trade(accounts, kind::SIMPLE, quantity, price);
        } else {
            let accounts = (buyer as u8, seller as u8);
            self.writer.trade(accounts, kind::SIMPLE, quantity, price);
        }
        self.records += 1;
    }
}

/// The last quote stands for the whole day, so that every minute is valid.
fn quoted_minute(file: &mut File, minute: u32) {
    if minute == 0 {
        file.quote();
    }
    file.minute_end();
}

fn empty_minute(file: &mut File, _minute: u32) {
    file.minute_end();
}

fn untimed_minute(file: &mut File, _minute: u32) {
    for _ in 0..4 {
        file.quote();
    }
    file.minute_end();
}

fn timed_minute(file: &mut File, _minute: u32) {
    let mut times = [(); 4].map(|()| file.random.below(MINUTE));
    times.sort();
    for time in times {
        file.timed_quote(time);
    }
    file.minute_end();
}

fn traded_minute(trades: u32, tag: u8, accounts: u32) -> impl Fn(&mut File, u32) {
    move |file, minute| {
        quoted_minute(file, minute);
        for _ in 0..trades {
            file.trade(tag, accounts);
        }
    }
}

/// A file of days, each with its minutes, a fix with a set price and a close.
fn days(name: &'static str, count: u32, minute: impl Fn(&mut File, u32)) -> Input {
    input(name, count, minute, File::near)
}

/// A day whose fix finds no price but that of the last minute's midpoints.
fn day_of_midpoints(name: &'static str, minute: impl Fn(&mut File, u32)) -> Input {
    input(name, 1, minute, |_| 0)
}

fn input(
    name: &'static str,
    days: u32,
    minute: impl Fn(&mut File, u32),
    set_price: impl Fn(&mut File) -> u32,
) -> Input {
    let mut file = File::new();
    for _ in 0..days {
        for number in 0..FULL_DAY {
            minute(&mut file, number);
        }
        let set_price = set_price(&mut file);
        file.fix(set_price);
        file.close();
    }
    file.named(name)
}

/// A fixed day with hardly more than it needs, on which each of so many accounts trades once. Its
/// last minute is valid, so that there is an amount to post.
pub fn fixed_day(accounts: u32) -> Input {
    fixed(accounts).named("a fixed day")
}

/// The same day with its close.
pub fn closed_day(accounts: u32) -> Input {
    let mut file = fixed(accounts);
    file.close();
    file.named("a closed day")
}

fn fixed(accounts: u32) -> File {
    let mut file = File::new();
    file.length_of_day(SHORT_DAY);
    for buyer in (0..accounts).step_by(2) {
        file.trade_between(tag::TWO_BYTE_TRADE, buyer, buyer + 1);
    }
    for _ in 1..SHORT_DAY {
        file.minute_end();
    }
    file.quote();
    file.minute_end();
    let set_price = file.near();
    file.fix(set_price);
    file
}

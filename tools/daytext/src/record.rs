//! The records of a day file, each with its fields.

use dayformat::tag::{
    CLOSE, FINAL_DATE, FINAL_FIX, FIX, HALT, LENGTH_OF_DAY, MINUTE_END, QUOTE, RESUME, TIMED_QUOTE,
    TRADE, TWO_BYTE_TRADE,
};
use dayformat::{header, kind, Writer};

/// The kinds of trades that have a word.
pub const KINDS: [(u8, &str); 3] = [
    (kind::SIMPLE, "simple"),
    (kind::SPREAD, "spread"),
    (kind::BLOCK, "block"),
];

/// The buyer and the seller of a trade, as they are written.
#[derive(Clone, Copy, Debug, PartialEq, Eq)]
pub enum Accounts {
    /// Tag 1.
    OneByte(u8, u8),
    /// Tag 10.
    TwoBytes(u16, u16),
}

impl Accounts {
    /// One byte each where both fit.
    pub fn shortest(buyer: u16, seller: u16) -> Accounts {
        match (u8::try_from(buyer), u8::try_from(seller)) {
            (Ok(buyer), Ok(seller)) => Accounts::OneByte(buyer, seller),
            _ => Accounts::TwoBytes(buyer, seller),
        }
    }

    pub fn numbers(self) -> (u16, u16) {
        match self {
            Accounts::OneByte(buyer, seller) => (buyer.into(), seller.into()),
            Accounts::TwoBytes(buyer, seller) => (buyer, seller),
        }
    }
}

#[derive(Clone, Debug, PartialEq, Eq)]
pub enum Record {
    Trade {
        accounts: Accounts,
        kind: u8,
        quantity: u32,
        price: u32,
    },
    Quote {
        bid: u32,
        offer: u32,
    },
    MinuteEnd {
        index: u32,
    },
    Halt,
    Resume,
    Fix {
        price: u32,
    },
    Close,
    LengthOfDay {
        minutes: u16,
    },
    TimedQuote {
        /// Milliseconds into the minute.
        time: u16,
        bid: u32,
        offer: u32,
    },
    FinalDate {
        year: u16,
        month: u8,
    },
    FinalFix {
        /// The hourly index value.
        hourly: u32,
    },
    /// An unknown tag, or a known one with a wrong length.
    Other {
        tag: u8,
        body: Vec<u8>,
    },
}

impl Record {
    /// The record of a tag and a body of at most `dayformat::LONGEST_BODY` bytes.
    pub fn new(tag: u8, body: &[u8]) -> Record {
        match (tag, body) {
            (TRADE, &[buyer, seller, kind, a, b, c, d, e, f, g, h]) => {
                let accounts = Accounts::OneByte(buyer, seller);
                trade(accounts, kind, [a, b, c, d], [e, f, g, h])
            }
            (TWO_BYTE_TRADE, &[a, b, c, d, kind, e, f, g, h, i, j, k, l]) => {
                let (buyer, seller) = (u16::from_be_bytes([a, b]), u16::from_be_bytes([c, d]));
                let accounts = Accounts::TwoBytes(buyer, seller);
                trade(accounts, kind, [e, f, g, h], [i, j, k, l])
            }
            (QUOTE, &[a, b, c, d, e, f, g, h]) => Record::Quote {
                bid: u32::from_be_bytes([a, b, c, d]),
                offer: u32::from_be_bytes([e, f, g, h]),
            },
            (MINUTE_END, &[a, b, c, d]) => Record::MinuteEnd {
                index: u32::from_be_bytes([a, b, c, d]),
            },
            (HALT, []) => Record::Halt,
            (RESUME, []) => Record::Resume,
            (FIX, &[a, b, c, d]) => Record::Fix {
                price: u32::from_be_bytes([a, b, c, d]),
            },
            (CLOSE, []) => Record::Close,
            (LENGTH_OF_DAY, &[a, b]) => Record::LengthOfDay {
                minutes: u16::from_be_bytes([a, b]),
            },
            (TIMED_QUOTE, &[a, b, c, d, e, f, g, h, i, j]) => Record::TimedQuote {
                time: u16::from_be_bytes([a, b]),
                bid: u32::from_be_bytes([c, d, e, f]),
                offer: u32::from_be_bytes([g, h, i, j]),
            },
            (FINAL_DATE, &[a, b, month]) => Record::FinalDate {
                year: u16::from_be_bytes([a, b]),
                month,
            },
            (FINAL_FIX, &[a, b, c, d]) => Record::FinalFix {
                hourly: u32::from_be_bytes([a, b, c, d]),
            },
            _ => Record::Other {
                tag,
                body: body.to_vec(),
            },
        }
    }

    /// The first record and the bytes after it; none if the end cuts it off.
    pub fn read(bytes: &[u8]) -> Option<(Record, &[u8])> {
        let (tag, length, after) = header(bytes)?;
        let (body, rest) = after.split_at_checked(length)?;
        Some((Record::new(tag, body), rest))
    }

    pub fn to_bytes(&self) -> Vec<u8> {
        let mut file = Writer::new();
        match self {
            Record::Trade {
                accounts,
                kind,
                quantity,
                price,
            } => match *accounts {
                Accounts::OneByte(buyer, seller) => {
                    file.trade((buyer, seller), *kind, *quantity, *price)
                }
                Accounts::TwoBytes(buyer, seller) => {
                    file.two_byte_trade((buyer, seller), *kind, *quantity, *price)
                }
            },
            Record::Quote { bid, offer } => file.quote(*bid, *offer),
            Record::MinuteEnd { index } => file.minute_ends(1, *index),
            Record::Halt => file.halt(),
            Record::Resume => file.resume(),
            Record::Fix { price } => file.fix(*price),
            Record::Close => file.close(),
            Record::LengthOfDay { minutes } => file.length_of_day(*minutes),
            Record::TimedQuote { time, bid, offer } => file.timed_quote(*time, *bid, *offer),
            Record::FinalDate { year, month } => file.final_date(*year, *month),
            Record::FinalFix { hourly } => file.final_fix(*hourly),
            Record::Other { tag, body } => file.record(*tag, body),
        };
        file.bytes
    }
}

fn trade(accounts: Accounts, kind: u8, quantity: [u8; 4], price: [u8; 4]) -> Record {
    Record::Trade {
        accounts,
        kind,
        quantity: u32::from_be_bytes(quantity),
        price: u32::from_be_bytes(price),
    }
}

//! Reads a file's records.

use crate::call::{Call, Market, Month, TimedQuote, Trade};
use crate::rules::FileRules;
use dayformat::{header, set, tag};

#[derive(Clone, Debug, PartialEq, Eq)]
pub enum Record {
    Call(Call),
    /// With its trades in list order.
    Set(Vec<Trade>),
    WrongLength,
    Unknown,
    CutOff,
}

pub fn records(file: &[u8], rules: &dyn FileRules) -> Vec<Record> {
    let mut records = Vec::new();
    let mut rest = file;
    while let Some((record, after)) = first_record(rest, rules) {
        records.push(record);
        rest = after;
    }
    if rules.is_cut_off(rest) {
        records.push(Record::CutOff);
    }
    records
}

/// The first record and the bytes after it, none without a whole one.
fn first_record<'a>(file: &'a [u8], rules: &dyn FileRules) -> Option<(Record, &'a [u8])> {
    let (tag, length, bytes) = header(file)?;
    match known_length(tag, length, rules) {
        None => Some((Record::Unknown, bytes.get(length..)?)),
        Some(known) if known == length => {
            let (body, after) = bytes.split_at_checked(length)?;
            Some((known_record(tag, body, rules), after))
        }
        Some(_) => Some((
            Record::WrongLength,
            rules.after_wrong_length(bytes, length)?,
        )),
    }
}

/// The length that belongs to a tag, none for an unknown one; of a set, that of the whole trades in a
/// body as long as the record states.
fn known_length(tag: u8, stated: usize, rules: &dyn FileRules) -> Option<usize> {
    match rules.is_set(tag) {
        true => Some(stated / set::TRADE * set::TRADE),
        false => rules.body_length(tag),
    }
}

/// The record of a known tag and a body of its length.
fn known_record(tag: u8, body: &[u8], rules: &dyn FileRules) -> Record {
    match rules.is_set(tag) {
        true => Record::Set(trades_of_set(body, rules)),
        false => Record::Call(call(tag, body, rules)),
    }
}

fn trades_of_set(body: &[u8], rules: &dyn FileRules) -> Vec<Trade> {
    let of_set = |body| Trade {
        tag: set::TAG,
        ..trade(tag::TWO_BYTE_TRADE, body, rules)
    };
    body.chunks_exact(set::TRADE).map(of_set).collect()
}

/// The call of a known tag and a body of its length. Its fields are read here and not beside their
/// writer, so that each is written from the documents and they check each other.
fn call(tag: u8, body: &[u8], rules: &dyn FileRules) -> Call {
    match tag {
        tag::TRADE | tag::TWO_BYTE_TRADE => Call::Trade(trade(tag, body, rules)),
        tag::QUOTE => Call::Quote(market(body)),
        tag::TIMED_QUOTE => Call::TimedQuote(TimedQuote {
            time: number(&body[0..2]) as u16,
            market: market(&body[2..10]),
        }),
        tag::MINUTE_END => Call::MinuteEnd(number(body)),
        tag::HALT => Call::Halt,
        tag::RESUME => Call::Resume,
        tag::FIX => Call::Fix(number(body)),
        tag::LENGTH_OF_DAY => Call::LengthOfDay(number(body) as u16),
        tag::FINAL_DATE => Call::FinalDate(Month {
            year: number(&body[0..2]) as u16,
            month: body[2],
        }),
        tag::FINAL_FIX => Call::FinalFix(number(body)),
        _ => Call::Close,
    }
}

fn trade(tag: u8, body: &[u8], rules: &dyn FileRules) -> Trade {
    let (buyer, after) = body.split_at(rules.account_bytes(tag));
    let (seller, after) = after.split_at(rules.account_bytes(tag));
    Trade {
        buyer: rules.account(buyer),
        seller: rules.account(seller),
        kind: after[0],
        quantity: number(&after[1..5]),
        price: number(&after[5..9]),
        tag,
    }
}

fn market(sides: &[u8]) -> Market {
    Market {
        bid: number(&sides[0..4]),
        offer: number(&sides[4..8]),
    }
}

/// High byte first.
pub fn number(bytes: &[u8]) -> u32 {
    bytes
        .iter()
        .fold(0, |value, byte| value << 8 | u32::from(*byte))
}

//! Bytes to text.

use crate::line::MOST_TIMES;
use crate::record::{Accounts, Record, KINDS};
use dayformat::tag::TWO_BYTE_TRADE;
use std::fmt;

/// The text of a day file, each record with its place in the file as a comment.
///
/// The places are those of the printout: `refused 5 record 12`.
pub fn decode(bytes: &[u8]) -> String {
    let Some((size, mut rest)) = bytes.split_first() else {
        return "size missing\n".to_string();
    };
    let mut text = format!("size {size}\n");
    let mut place = 1;
    while let Some((record, after)) = Record::read(rest) {
        let each = rest.len() - after.len();
        let times = match record {
            Record::MinuteEnd { .. } => 1 + equal_records(&rest[..each], after),
            _ => 1,
        };
        text += &record_line(&record, place, times);
        place += times;
        rest = &rest[each * times..];
    }
    if !rest.is_empty() {
        text += &with_comment(&format!("bytes{}", Bytes(rest)), place, 1);
    }
    text
}

/// How many records equal to this one the bytes after it begin with.
fn equal_records(record: &[u8], after: &[u8]) -> usize {
    after
        .chunks(record.len())
        .take_while(|&chunk| chunk == record)
        .take(MOST_TIMES as usize - 1)
        .count()
}

fn record_line(record: &Record, place: usize, times: usize) -> String {
    match times {
        1 => with_comment(&record.to_string(), place, 1),
        _ => with_comment(&format!("{record} times {times}"), place, times),
    }
}

fn with_comment(line: &str, place: usize, times: usize) -> String {
    match times {
        1 => format!("{line:<40} # record {place}\n"),
        _ => format!("{line:<40} # records {place} to {}\n", place + times - 1),
    }
}

impl fmt::Display for Record {
    fn fmt(&self, formatter: &mut fmt::Formatter) -> fmt::Result {
        match self {
            Record::Trade {
                accounts,
                kind,
                quantity,
                price,
            } => {
                let (buyer, seller) = accounts.numbers();
                let (kind, tag) = (Kind(*kind), AsTag(*accounts));
                write!(
                    formatter,
                    "trade {buyer} {seller} {kind} {quantity} at {price}{tag}"
                )
            }
            Record::Quote { bid, offer } => {
                write!(formatter, "quote {} {}", OrNone(*bid), OrNone(*offer))
            }
            Record::TimedQuote { time, bid, offer } => {
                let (bid, offer) = (OrNone(*bid), OrNone(*offer));
                write!(formatter, "quote {bid} {offer} after {time}")
            }
            Record::MinuteEnd { index } => write!(formatter, "minute {}", OrNone(*index)),
            Record::Halt => write!(formatter, "halt"),
            Record::Resume => write!(formatter, "resume"),
            Record::Fix { price: 0 } => write!(formatter, "fix"),
            Record::Fix { price } => write!(formatter, "fix {price}"),
            Record::Close => write!(formatter, "close"),
            Record::LengthOfDay { minutes } => write!(formatter, "length {minutes}"),
            Record::FinalDate { year, month } => write!(formatter, "final {year} {month}"),
            Record::FinalFix { hourly } => write!(formatter, "hourly {hourly}"),
            Record::Other { tag, body } => write!(formatter, "record {tag}{}", Bytes(body)),
        }
    }
}

struct Kind(u8);

impl fmt::Display for Kind {
    fn fmt(&self, formatter: &mut fmt::Formatter) -> fmt::Result {
        match KINDS.iter().find(|(kind, _)| *kind == self.0) {
            Some((_, word)) => write!(formatter, "{word}"),
            None => write!(formatter, "{}", self.0),
        }
    }
}

/// The tag of a trade, which its line says only where one byte would hold each account.
struct AsTag(Accounts);

impl fmt::Display for AsTag {
    fn fmt(&self, formatter: &mut fmt::Formatter) -> fmt::Result {
        let (buyer, seller) = self.0.numbers();
        if self.0 == Accounts::shortest(buyer, seller) {
            Ok(())
        } else {
            write!(formatter, " as tag {TWO_BYTE_TRADE}")
        }
    }
}

/// A number, 0 being written `-`.
struct OrNone(u32);

impl fmt::Display for OrNone {
    fn fmt(&self, formatter: &mut fmt::Formatter) -> fmt::Result {
        match self.0 {
            0 => write!(formatter, "-"),
            number => write!(formatter, "{number}"),
        }
    }
}

/// Bytes in hexadecimal, each after a space.
struct Bytes<'a>(&'a [u8]);

impl fmt::Display for Bytes<'_> {
    fn fmt(&self, formatter: &mut fmt::Formatter) -> fmt::Result {
        for byte in self.0 {
            write!(formatter, " {byte:02x}")?;
        }
        Ok(())
    }
}

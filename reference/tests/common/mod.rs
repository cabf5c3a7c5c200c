//! What the tests look at: a file's printout, or the refused records in it.

#![allow(dead_code)] // Each test uses some of it.

use dayformat::Writer;
use reference::{bench, set_bench};

/// Plays the records on a fresh book.
pub fn printout(size: u8, file: &Writer) -> String {
    bench(&[&[size], &file.bytes[..]].concat())
}

/// Plays the records, of which some are sets.
pub fn set_printout(size: u8, file: &Writer) -> String {
    set_bench(&[&[size], &file.bytes[..]].concat())
}

/// The numbers and places of the refused records.
pub fn assert_refusals(file: &Writer, expected: &[(u8, usize)]) {
    assert_refused(&printout(10, file), expected);
}

/// The same, where some records are sets.
pub fn assert_set_refusals(file: &Writer, expected: &[(u8, usize)]) {
    assert_refused(&set_printout(10, file), expected);
}

fn assert_refused(printout: &str, expected: &[(u8, usize)]) {
    let line = |(number, place): &(u8, usize)| format!("refused {number} record {place}");
    let expected: Vec<String> = expected.iter().map(line).collect();
    let refused: Vec<&str> = printout
        .lines()
        .filter(|line| line.starts_with("refused "))
        .collect();
    assert_eq!(refused, expected);
}

/// A trade of tag 10.
pub type TwoByteTrade = ((u16, u16), u8, u32, u32);

/// The trades' records, which a set can be made of.
pub fn trades(list: &[TwoByteTrade]) -> Writer {
    let mut trades = Writer::new();
    for (accounts, kind, quantity, price) in list {
        trades.two_byte_trade(*accounts, *kind, *quantity, *price);
    }
    trades
}

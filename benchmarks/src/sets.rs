//! Sets of trades, which no day file has: those that are timed, and files with records of sets.

use crate::book::{Answer, Book, MOST_TRADES};
use crate::play::{play, trade};
use crate::trade::Trade;
use dayformat::{header, kind, set, HEADER};
use reference::refusal::FILE;
use std::array;
use std::hint::black_box;

/// The trades that are timed, those of crates/trade_bench.
pub const TRADES: usize = 1_000_000;

/// One contract goes from account 0 to account 1 and back, so that no limit is met.
fn trade_at(place: usize) -> Trade {
    let (buyer, seller) = match place.is_multiple_of(2) {
        true => (1, 0),
        false => (0, 1),
    };
    Trade {
        buyer,
        seller,
        kind: kind::SIMPLE,
        quantity: 1,
        price: 200_200,
    }
}

/// How many of the trades that are timed a book accepts in sets of as many as a set may have. That
/// number is even, so that the trades of each set are those of the first.
pub fn run() -> usize {
    let trades: [Trade; MOST_TRADES] = array::from_fn(trade_at);
    let mut book = Book::open(1);
    let mut accepted = 0;
    for _ in 0..TRADES / MOST_TRADES {
        let answer = black_box(&mut book).trade_set(black_box(&trades));
        accepted += if answer.is_ok() { MOST_TRADES } else { 0 };
    }
    accepted
}

/// Plays a file with sets, each a record of `set::TAG`, and fills the lists where it ends. It gives the
/// answer to each record, none to an unknown one.
pub fn answers_with_sets(
    size: u8,
    file: &[u8],
    positions: &mut [i64],
    cash: &mut [i64],
) -> Vec<Option<Answer>> {
    let mut answers = Vec::new();
    if !Book::is_size(size) {
        return answers;
    }
    let mut book = Book::open(size);
    let mut rest = file;
    while !rest.is_empty() {
        let (record, next) = first_record(rest);
        match body_of_set(record) {
            Some(body) => answers.push(Some(answer_to_set(&mut book, body))),
            None => play(&mut book, record, |answer| answers.push(answer)),
        }
        rest = next;
    }
    positions.copy_from_slice(&book.position);
    cash.copy_from_slice(&book.cash);
    answers
}

/// The first record and what follows it. Of a record that the end cuts off it is all that is left.
fn first_record(file: &[u8]) -> (&[u8], &[u8]) {
    let whole = header(file).map_or(file.len(), |(_, length, _)| HEADER + length);
    file.split_at(whole.min(file.len()))
}

/// None of another record, or of one that the end cuts off.
fn body_of_set(record: &[u8]) -> Option<&[u8]> {
    let (tag, length, body) = header(record)?;
    (tag == set::TAG && body.len() == length).then_some(body)
}

fn answer_to_set(book: &mut Book, body: &[u8]) -> Answer {
    let (trades, rest) = body.as_chunks::<{ set::TRADE }>();
    if !rest.is_empty() {
        return Err(FILE);
    }
    let trades: Vec<Trade> = trades.iter().map(|body| trade_of_set(*body)).collect();
    book.trade_set(&trades)
}

fn trade_of_set([i, j, k, l, kind, rest @ ..]: [u8; set::TRADE]) -> Trade {
    let (buyer, seller) = (u16::from_be_bytes([i, j]), u16::from_be_bytes([k, l]));
    trade(buyer, seller, kind, rest)
}

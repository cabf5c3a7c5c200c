//! Reads a file's records and plays them.

use crate::book::{Answer, Book};
use crate::market::Market;
use crate::trade::{Trade, ACCOUNTS};
use dayformat::{body_length, header, length, tag};
use reference::refusal::FILE;

/// The same run as the C library's, on the same lists.
pub fn run(size: u8, file: &[u8], positions: &mut [i64], cash: &mut [i64]) -> u64 {
    let lists_are_taken = positions.len() == ACCOUNTS && cash.len() == ACCOUNTS;
    if !Book::is_size(size) || !lists_are_taken {
        return 0;
    }
    let mut book = Book::open(size);
    let mut accepted = 0;
    play(&mut book, file, |answer| {
        accepted += u64::from(answer == Some(Ok(())));
    });
    positions.copy_from_slice(&book.position);
    cash.copy_from_slice(&book.cash);
    accepted
}

/// The answer to each record, none to an unknown one.
pub fn answers(size: u8, file: &[u8]) -> Vec<Option<Answer>> {
    let mut answers = Vec::new();
    if Book::is_size(size) {
        play(&mut Book::open(size), file, |answer| answers.push(answer));
    }
    answers
}

/// Trades with two-byte accounts have a loop of their own: read by `call`, as those with one-byte
/// accounts are, a record of a day with them took 1.4 times as long.
#[inline(always)]
pub fn play(book: &mut Book, file: &[u8], mut answered: impl FnMut(Option<Answer>)) {
    let mut rest = file;
    while !rest.is_empty() {
        while let [tag::TWO_BYTE_TRADE, 0, length::TWO_BYTE_TRADE, i, j, k, l, kind, a, b, c, d, e, f, g, h, ref next @ ..] =
            *rest
        {
            let (buyer, seller) = (u16::from_be_bytes([i, j]), u16::from_be_bytes([k, l]));
            let trade = trade(buyer, seller, kind, [a, b, c, d, e, f, g, h]);
            answered(Some(book.trade(trade)));
            rest = next;
        }
        if rest.is_empty() {
            break;
        }
        let (answer, next) = match call(book, rest) {
            Some((answer, next)) => (Some(answer), next),
            None => passed_over(rest),
        };
        answered(answer);
        rest = next;
    }
}

pub fn trade(buyer: u16, seller: u16, kind: u8, [a, b, c, d, e, f, g, h]: [u8; 8]) -> Trade {
    Trade {
        buyer,
        seller,
        kind,
        quantity: number([a, b, c, d]),
        price: number([e, f, g, h]),
    }
}

/// Plays the first record and gives what follows it, none unless it has a known tag but that of a
/// trade with two-byte accounts, and its length. One pattern reads both, so that the place of the
/// next record doesn't wait for the length.
#[inline(always)]
fn call<'a>(book: &mut Book, file: &'a [u8]) -> Option<(Answer, &'a [u8])> {
    Some(match *file {
        [tag::MINUTE_END, 0, length::MINUTE_END, a, b, c, d, ref next @ ..] => {
            (book.minute_end(number([a, b, c, d])), next)
        }
        [tag::TRADE, 0, length::TRADE, buyer, seller, kind, a, b, c, d, e, f, g, h, ref next @ ..] =>
        {
            let trade = trade(buyer.into(), seller.into(), kind, [a, b, c, d, e, f, g, h]);
            (book.trade(trade), next)
        }
        [tag::QUOTE, 0, length::QUOTE, a, b, c, d, e, f, g, h, ref next @ ..] => {
            let (bid, offer) = (number([a, b, c, d]), number([e, f, g, h]));
            (book.quote(Market { bid, offer }), next)
        }
        [tag::TIMED_QUOTE, 0, length::TIMED_QUOTE, a, b, c, d, e, f, g, h, i, j, ref next @ ..] => {
            let (bid, offer) = (number([c, d, e, f]), number([g, h, i, j]));
            let time = u16::from_be_bytes([a, b]);
            (book.timed_quote(time, Market { bid, offer }), next)
        }
        [tag::HALT, 0, length::HALT, ref next @ ..] => (book.halt(), next),
        [tag::RESUME, 0, length::RESUME, ref next @ ..] => (book.resume(), next),
        [tag::FIX, 0, length::FIX, a, b, c, d, ref next @ ..] => {
            (book.fix(number([a, b, c, d])), next)
        }
        [tag::CLOSE, 0, length::CLOSE, ref next @ ..] => (book.close(), next),
        [tag::LENGTH_OF_DAY, 0, length::LENGTH_OF_DAY, a, b, ref next @ ..] => {
            (book.set_length(u16::from_be_bytes([a, b])), next)
        }
        [tag::FINAL_DATE, 0, length::FINAL_DATE, a, b, month, ref next @ ..] => {
            let year = u16::from_be_bytes([a, b]);
            (book.final_date(year, month).map(|_friday| ()), next)
        }
        [tag::FINAL_FIX, 0, length::FINAL_FIX, a, b, c, d, ref next @ ..] => {
            (book.final_fix(number([a, b, c, d])), next)
        }
        _ => return None,
    })
}

fn number(bytes: [u8; 4]) -> u32 {
    u32::from_be_bytes(bytes)
}

/// The answer to a record that is no call, and what follows it.
fn passed_over(file: &[u8]) -> (Option<Answer>, &[u8]) {
    let cut_off = (Some(Err(FILE)), &[][..]);
    let Some((tag, length, after)) = header(file) else {
        return cut_off;
    };
    match after.get(length..) {
        None => cut_off,
        Some(next) if body_length(tag).is_some() => (Some(Err(FILE)), next),
        Some(next) => (None, next),
    }
}

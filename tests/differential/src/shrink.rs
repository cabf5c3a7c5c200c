//! Makes an input smaller while it still shows a difference.

use crate::records::split;
use dayformat::{set, Writer, HEADER};
use std::time::{Duration, Instant};

const TIME_LIMIT: Duration = Duration::from_secs(60);

/// The smallest input found for which `differs` still holds.
pub fn shrink(input: &[u8], differs: impl Fn(&[u8]) -> bool) -> Vec<u8> {
    let Some((size, file)) = input.split_first() else {
        return Vec::new();
    };
    let deadline = Instant::now() + TIME_LIMIT;
    let with_size = |records: &[Vec<u8>]| [&[*size][..], &records.concat()].concat();
    let fewer = drop_parts(split(file), deadline, |records| {
        differs(&with_size(records))
    });
    let shorter = drop_trades(fewer, deadline, |records| differs(&with_size(records)));
    let bytes: Vec<Vec<u8>> = with_size(&shorter).chunks(1).map(<[u8]>::to_vec).collect();
    shorten(bytes, deadline, |bytes| differs(&bytes.concat())).concat()
}

/// Drops runs of parts, long runs first.
fn drop_parts(
    mut parts: Vec<Vec<u8>>,
    deadline: Instant,
    differs: impl Fn(&[Vec<u8>]) -> bool,
) -> Vec<Vec<u8>> {
    let mut run = parts.len().div_ceil(2);
    while run > 0 {
        let mut from = 0;
        while from < parts.len() && Instant::now() < deadline {
            let mut fewer = parts.clone();
            fewer.drain(from..(from + run).min(parts.len()));
            match differs(&fewer) {
                true => parts = fewer,
                false => from += run,
            }
        }
        run /= 2;
    }
    parts
}

/// Drops trades of each set. A set that is cut off becomes a whole one, if that still differs.
fn drop_trades(
    mut records: Vec<Vec<u8>>,
    deadline: Instant,
    differs: impl Fn(&[Vec<u8>]) -> bool,
) -> Vec<Vec<u8>> {
    for at in 0..records.len() {
        let (set::TAG, Some(body)) = (records[at][0], records[at].get(HEADER..)) else {
            continue;
        };
        let trades = body.chunks(set::TRADE).map(<[u8]>::to_vec).collect();
        let with = |trades: &[Vec<u8>]| {
            let mut set = Writer::new();
            set.record(set::TAG, &trades.concat());
            let (before, after) = (&records[..at], &records[at + 1..]);
            [before, &[set.bytes], after].concat()
        };
        let fewer = drop_parts(trades, deadline, |trades| differs(&with(trades)));
        let shorter = with(&fewer);
        if differs(&shorter) {
            records = shorter;
        }
    }
    records
}

/// Drops parts from the end, many at once first.
fn shorten(
    mut parts: Vec<Vec<u8>>,
    deadline: Instant,
    differs: impl Fn(&[Vec<u8>]) -> bool,
) -> Vec<Vec<u8>> {
    let mut run = parts.len().div_ceil(2);
    while run > 0 {
        while run <= parts.len() && Instant::now() < deadline {
            match differs(&parts[..parts.len() - run]) {
                true => parts.truncate(parts.len() - run),
                false => break,
            }
        }
        run /= 2;
    }
    parts
}

#[cfg(test)]
mod tests {
    use super::*;
    use reference::set_bench;

    #[test]
    fn only_the_records_that_matter_remain() {
        let mut file = Writer::new();
        file.minute_ends(300, 5_000).halt().minute_ends(300, 0);
        let input = [&[10][..], &file.bytes].concat();
        let has_halt = |input: &[u8]| split(&input[1..]).contains(&vec![4, 0, 0]);
        let shrunk = shrink(&input, |input| !input.is_empty() && has_halt(input));
        assert_eq!(shrunk, [10, 4, 0, 0]);
    }

    /// Thirteen of them take the position past its limit.
    #[test]
    fn only_the_trades_of_a_set_that_matter_remain() {
        let (mut trades, mut file) = (Writer::new(), Writer::new());
        for account in 10..25 {
            trades.two_byte_trade((account, account), 0, 1, 5_000);
            trades.two_byte_trade((1, 2), 0, 100_000, 5_000);
        }
        file.minute_ends(9, 0).set(&trades).minute_ends(9, 0);
        let input = [&[10][..], &file.bytes].concat();
        let shrunk = shrink(&input, |input| set_bench(input).contains("refused 8 "));
        assert_eq!(shrunk.len(), 1 + HEADER + 13 * set::TRADE);
        assert_eq!(set_bench(&shrunk), "refused 8 record 1\nend\n");
    }
}

//! The ledger that is timed gives the reference's answers, record by record.

mod common;
mod expiry;
mod sets;

use benchmarks::{answers, run, ACCOUNTS};
use common::same_run;
use dayformat::Writer;
use differential::profiles;
use differential::random::Random;
use std::collections::BTreeSet;

#[test]
fn generated_files() {
    for seed in 0..600 {
        same_run(&format!("seed {seed}"), &profiles::input(seed));
    }
}

/// Generated files have such days too; these have each length after each, with trades and a late
/// record around every end.
#[test]
fn days_of_both_lengths() {
    let mut file = Writer::new();
    for length in [1_140, 1_140, 1_320, 1_320, 1_140] {
        file.length_of_day(1_141)
            .length_of_day(length)
            .length_of_day(1_320)
            .minute_ends(1_139, 200_000)
            .trade((3, 7), 0, 12, 200_200)
            .minute_ends(1, 200_100)
            .fix(0)
            .minute_ends(179, 200_200)
            .trade((7, 9), 0, 5, 200_100)
            .minute_ends(1, 200_300)
            .length_of_day(1_140)
            .fix(0)
            .trade((7, 9), 0, 5, 200_100)
            .close();
    }
    same_run("both lengths", &[&[10], &file.bytes[..]].concat());
}

/// Markets in field and not: wide, narrow, at both ends of the prices, one-sided, none, crossed, and
/// one with a side that isn't ticked.
const MARKETS: [(u32, u32); 11] = [
    (200_100, 200_300),
    (200_110, 200_510),
    (200_090, 200_100),
    (5_000, 5_010),
    (5_000, 50_000_000),
    (49_999_990, 50_000_000),
    (0, 200_300),
    (200_100, 0),
    (0, 0),
    (200_300, 200_300),
    (200_105, 200_300),
];

/// Mostly quotes with times that rise, some times that run back or are above 59,999, and quotes
/// without one, halts and resumes between them.
fn add_minute(file: &mut Writer, random: &mut Random) {
    let mut time = 0;
    for _ in 0..random.below(12) {
        let (bid, offer) = random.pick(&MARKETS);
        match random.below(12) {
            0 => file.halt(),
            1 | 2 => file.resume(),
            3 => file.quote(bid, offer),
            4 => file.timed_quote(random.pick(&[0, 59_999, 60_000, 65_535]), bid, offer),
            5 => file.timed_quote(random.below(60_000) as u16, bid, offer),
            _ => {
                time += random.below(10_000) as u16 / 2;
                file.timed_quote(time, bid, offer)
            }
        };
    }
}

/// The last two minutes of such a day and what comes after them are random; the third minute end is
/// late. Where no rule gives a price, the second fix does. A quote at 0 follows on the close before.
fn add_day_without_late_trades(file: &mut Writer, random: &mut Random) {
    let length = random.pick(&[1_140, 1_320]);
    file.length_of_day(length).resume();
    file.timed_quote(0, 200_100, 200_300);
    file.trade((3, 7), 0, 12, 200_200);
    file.minute_ends(usize::from(length) - 2, 200_000);
    for _ in 0..3 {
        add_minute(file, random);
        file.minute_ends(1, random.pick(&[0, 200_100, 200_300]));
    }
    file.fix(0).fix(200_250);
    add_minute(file, random);
    file.close();
}

#[test]
fn days_settled_by_midpoints() {
    let mut random = Random::new(4);
    for number in 0..40 {
        let mut file = Writer::new();
        for _ in 0..4 {
            add_day_without_late_trades(&mut file, &mut random);
        }
        let input = [&[10], &file.bytes[..]].concat();
        same_run(&format!("midpoints {number}"), &input);
    }
}

/// Accounts at both ends and at those of one byte, and two that are none.
const NUMBERS: [u16; 8] = [0, 1, 255, 256, 1_022, 1_023, 1_024, 65_535];

/// A trade by either record. The lower account mostly buys, so that the limit on positions is met;
/// some have more than one field or account that is refused.
fn add_trade(file: &mut Writer, random: &mut Random) {
    let kind = random.pick(&[0, 1, 2, 2, 3]);
    let quantity = random.pick(&[0, 249, 90_000, 100_000, 100_000, 100_000, 100_001]);
    let price = random.pick(&[200_200, 200_210, 200_220, 200_215, 4_990]);
    let (one, other) = (random.pick(&NUMBERS), random.pick(&NUMBERS));
    let (buyer, seller) = match random.chance(80) {
        true => (one.min(other), one.max(other)),
        false => (one, other),
    };
    match random.chance(30) {
        true => file.trade((buyer as u8, seller as u8), kind, quantity, price),
        false => file.two_byte_trade((buyer, seller), kind, quantity, price),
    };
}

/// Every eighth minute has trades, and every sixteenth is halted.
fn add_traded_day(file: &mut Writer, random: &mut Random) {
    for minute in 0..1_320 {
        if minute % 16 == 0 {
            file.halt();
        }
        if minute % 8 == 0 || minute == 1_319 {
            (0..random.below(8)).for_each(|_| add_trade(file, random));
        }
        if minute % 16 == 0 {
            file.resume();
        }
        file.minute_ends(1, 200_000);
    }
    file.fix(200_250).close();
}

#[test]
fn trades_with_two_byte_accounts() {
    let mut random = Random::new(5);
    let mut met = BTreeSet::new();
    for number in 0..10 {
        let mut file = Writer::new();
        for _ in 0..3 {
            add_traded_day(&mut file, &mut random);
        }
        let input = [&[10], &file.bytes[..]].concat();
        same_run(&format!("two-byte accounts {number}"), &input);
        let answers = answers(10, &file.bytes);
        met.extend(answers.into_iter().flatten().filter_map(Result::err));
    }
    assert_eq!(met, BTreeSet::from([4, 5, 7, 8, 12]));
}

#[test]
fn more_than_2600_days() {
    same_run("long", &profiles::long_input(1));
}

#[test]
fn lists_of_other_lengths_stay_untouched() {
    let lengths = [0, 255, 256, 257, ACCOUNTS - 1, ACCOUNTS, ACCOUNTS + 1];
    let pairs = lengths.map(|length| [(length, ACCOUNTS), (ACCOUNTS, length), (length, length)]);
    let refused = |pair: &&(usize, usize)| **pair != (ACCOUNTS, ACCOUNTS);
    for &(positions, cash) in pairs.as_flattened().iter().filter(refused) {
        let (mut positions, mut cash) = (vec![7; positions], vec![7; cash]);
        assert_eq!(run(10, &[7, 0, 0], &mut positions, &mut cash), 0);
        assert!(positions.iter().chain(&cash).all(|entry| *entry == 7));
    }
}

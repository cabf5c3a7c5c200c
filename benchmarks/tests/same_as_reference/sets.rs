//! The ledger that is timed takes sets as the reference does, and the trades that are timed are accepted.

use crate::common::same_run_with_sets;
use benchmarks::sets;
use dayformat::Writer;
use differential::profiles;
use reference::file::{records, Record};
use reference::rules::Rules;
use reference::size_and_records;
use std::collections::BTreeSet;

/// The numbers of the refusals that the sets of an input meet.
fn refusals_of_sets(name: &str, input: &[u8]) -> BTreeSet<u8> {
    let (answers, _) = same_run_with_sets(name, input);
    let (_, file) = size_and_records(input);
    let records = records(file, Rules::WITH_SETS.files);
    answers
        .into_iter()
        .zip(records)
        .filter(|(_, record)| matches!(record, Record::Set(_)))
        .filter_map(|(answer, _)| answer?.err())
        .collect()
}

#[test]
fn generated_files() {
    let mut met = BTreeSet::new();
    for seed in 0..600 {
        let input = profiles::set_input(seed);
        met.extend(refusals_of_sets(&format!("seed {seed}"), &input));
    }
    assert_eq!(met, BTreeSet::from([3, 4, 5, 7, 8, 12, 13]));
}

type Trade = ((u16, u16), u8, u32, u32);

const GOOD: Trade = ((3, 7), 0, 12, 200_200);

fn add_set(file: &mut Writer, trades: &[Trade]) {
    let mut list = Writer::new();
    for ((buyer, seller), kind, quantity, price) in trades {
        list.two_byte_trade((*buyer, *seller), *kind, *quantity, *price);
    }
    file.set(&list);
}

/// The refusals of what `add_refused_sets` adds.
const REFUSED: [Result<(), u8>; 6] = [Err(13), Err(13), Err(5), Err(12), Err(7), Err(8)];

fn add_refused_sets(file: &mut Writer) {
    add_set(file, &[]);
    add_set(file, &[GOOD; 501]);
    add_set(file, &[GOOD, ((3, 7), 0, 0, 200_200)]);
    add_set(file, &[GOOD, ((3, 1_024), 0, 12, 200_200), GOOD]);
    add_set(file, &[((3, 3), 0, 100_000, 200_200); 11]);
    add_set(file, &[((3, 7), 0, 100_000, 200_200); 13]);
}

/// They don't begin a day, none of their trades in its last minute gives a price, and none is paid.
#[test]
fn refused_sets_leave_the_book_as_it_was() {
    let mut file = Writer::new();
    add_refused_sets(&mut file);
    file.length_of_day(1_140).minute_ends(1_139, 0);
    add_refused_sets(&mut file);
    file.minute_ends(1, 0).fix(0).fix(200_200);
    add_refused_sets(&mut file);
    add_set(&mut file, &[GOOD, GOOD]);
    file.close();
    let input = [&[10], &file.bytes[..]].concat();
    let expected = [
        &REFUSED[..],
        &[Ok(()); 1 + 1_139],
        &REFUSED,
        &[Ok(()), Err(9), Ok(())],
        &REFUSED,
        &[Ok(()), Ok(())],
    ];
    let expected = expected.concat().into_iter().map(Some);
    let (answers, _) = same_run_with_sets("refused sets", &input);
    assert!(answers.into_iter().eq(expected));
}

/// 3 comes before all others.
#[test]
fn sets_after_2600_days() {
    let mut file = Writer::new();
    file.halt();
    for _ in 0..2_600 {
        file.minute_ends(1_320, 0).fix(200_200).close();
    }
    add_refused_sets(&mut file);
    add_set(&mut file, &[GOOD]);
    let input = [&[10], &file.bytes[..]].concat();
    let (answers, _) = same_run_with_sets("2,600 days", &input);
    assert_eq!(answers[answers.len() - 7..], [Some(Err(3)); 7]);
}

#[test]
fn the_timed_trades_are_accepted() {
    assert_eq!(sets::run(), sets::TRADES);
}

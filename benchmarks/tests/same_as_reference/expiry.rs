//! Final dates and the end of a contract.

use crate::common::{same_run, same_run_with_sets};
use crate::{add_minute, add_trade};
use benchmarks::{last_friday, ACCOUNTS};
use dayformat::Writer;
use differential::random::Random;
use reference::call::Month;
use reference::rules::{ExpiryRules, RightLedger};
use std::collections::BTreeSet;

#[test]
fn last_fridays() {
    assert_eq!(last_friday(2_035, 10), Some(26));
    for year in 0..=u16::MAX {
        for month in 0..=u8::MAX {
            let of_month = Month { year, month };
            let is_in_table = RightLedger.is_in_table(of_month);
            let expected = is_in_table.then(|| RightLedger.last_friday(of_month));
            assert_eq!(last_friday(year, month), expected, "{year} {month}");
        }
    }
}

fn input(file: &Writer) -> Vec<u8> {
    [&[10], &file.bytes[..]].concat()
}

/// The list with these entries, by account, and 0 for all others.
fn list(entries: [(usize, i64); 3]) -> [i64; ACCOUNTS] {
    let mut list = [0; ACCOUNTS];
    for (account, entry) in entries {
        list[account] = entry;
    }
    list
}

/// Document 01's example day without its last trade, and a final date up to its close. All its minutes
/// are valid with a rate of 1,000,000; the hourly value goes to 200,300.
fn example_and_final_date() -> Writer {
    let mut file = Writer::new();
    file.quote(200_100, 200_300)
        .minute_ends(1_319, 200_000)
        .trade((3, 7), 0, 12, 200_200)
        .minute_ends(1, 200_000)
        .fix(0)
        .close()
        .final_date(2_026, 12)
        .quote(200_100, 200_300)
        .trade((9, 3), 1, 5, 200_100)
        .minute_ends(1_020, 200_000)
        .final_fix(200_305)
        .trade((7, 9), 0, 2, 200_400);
    file
}

/// What the final close adds, by present position, opening position and cost, and an amount of −20:
/// 3: (7 × 200,300 − 12 × 200,200 + 5 × 200,100) × 10 − 7 × 20 × 100 = −12,000
/// 7: (−10 × 200,300 + 12 × 200,200 − 2 × 200,400) × 10 + 10 × 20 × 100 = 6,000
/// 9: (3 × 200,300 − 5 × 200,100 + 2 × 200,400) × 10 − 3 × 20 × 100 = 6,000
#[test]
fn the_final_close_posts_and_then_clears() {
    let mut file = example_and_final_date();
    let (_, before) = same_run("before the final close", &input(&file));
    let net = list([(3, 7), (7, -10), (9, 3)]);
    let cash = list([(3, -24_000), (7, 24_000), (9, 0)]);
    assert!(before == (net, cash));
    file.close();
    let (answers, after) = same_run("after the final close", &input(&file));
    assert!(answers.iter().all(|answer| *answer == Some(Ok(()))));
    let cash = list([(3, -36_000), (7, 30_000), (9, 6_000)]);
    assert!(after == ([0; ACCOUNTS], cash));
}

/// A contract bought at 200,000 gets ten times what the price is above it.
#[test]
fn the_hourly_value_goes_to_the_nearest_dime_a_tie_to_the_even_one() {
    let rows = [
        (5_000, 5_000),
        (5_005, 5_000),
        (5_006, 5_010),
        (5_015, 5_020),
        (200_005, 200_000),
        (200_014, 200_010),
        (200_015, 200_020),
        (49_999_985, 49_999_980),
        (49_999_995, 50_000_000),
        (50_000_000, 50_000_000),
    ];
    for (hourly, price) in rows {
        let mut file = Writer::new();
        file.final_date(2_035, 10)
            .trade((3, 7), 0, 1, 200_000)
            .minute_ends(1_020, 0)
            .final_fix(hourly)
            .close();
        let (_, (_, cash)) = same_run("a hourly value", &input(&file));
        let gained = (price - 200_000) * 10;
        assert_eq!([cash[3], cash[7]], [gained, -gained], "{hourly}");
    }
}

/// All of them are refused, some would be accepted on an ordinary day and the others refused by another
/// number.
fn add_late_calls(file: &mut Writer) {
    let good = Writer::new().two_byte_trade((3, 7), 0, 12, 200_200).clone();
    file.resume()
        .trade((3, 7), 0, 12, 200_200)
        .two_byte_trade((1_024, 7), 0, 12, 200_200)
        .set(&good)
        .set(&Writer::new())
        .quote(200_100, 200_300)
        .timed_quote(60_000, 200_100, 200_300)
        .minute_ends(1, 4_999)
        .minute_ends(1, 200_000)
        .halt()
        .fix(200_200)
        .final_fix(0)
        .close()
        .length_of_day(1_140)
        .length_of_day(1_020)
        .final_date(2_024, 13)
        .final_date(2_035, 10);
}

const LATE_CALLS: usize = 17;

#[test]
fn after_the_final_close_every_call_and_set_is_refused_by_3() {
    for halted in [false, true] {
        let mut file = example_and_final_date();
        if halted {
            file.halt();
        }
        file.close();
        let (before, lists) = same_run("the final close", &input(&file));
        add_late_calls(&mut file);
        let (answers, after) = same_run_with_sets("late calls", &input(&file));
        assert_eq!(answers[before.len()..], [Some(Err(3)); LATE_CALLS]);
        assert!(after == lists);
    }
}

/// Day 2,600 may be the final one: its close clears too.
#[test]
fn the_last_of_2600_days_may_be_final() {
    let mut file = Writer::new();
    file.trade((3, 7), 0, 12, 200_200);
    for _ in 1..2_600 {
        file.minute_ends(1_320, 0).fix(200_200).close();
    }
    file.final_date(2_035, 10)
        .minute_ends(1_020, 0)
        .final_fix(200_204)
        .close();
    add_late_calls(&mut file);
    let (answers, (positions, _)) = same_run_with_sets("2,600 days", &input(&file));
    let (accepted, late) = answers.split_at(answers.len() - LATE_CALLS);
    assert!(accepted.iter().all(|answer| *answer == Some(Ok(()))));
    assert_eq!(late, [Some(Err(3)); LATE_CALLS]);
    assert_eq!(positions, [0; ACCOUNTS]);
}

/// In the table and not, each field outside it by one and far.
const MONTHS: [(u16, u8); 9] = [
    (2_024, 12),
    (2_025, 0),
    (2_025, 1),
    (2_031, 13),
    (2_035, 10),
    (2_050, 12),
    (2_050, 13),
    (2_051, 1),
    (0, 255),
];

const HOURLY: [u32; 10] = [
    0,
    4_999,
    5_000,
    5_005,
    200_004,
    200_015,
    200_025,
    50_000_000,
    50_000_001,
    u32::MAX,
];

/// What may come before the first minute of a date: calls that begin it, those that make it final, and
/// others.
fn add_start(file: &mut Writer, random: &mut Random) {
    for _ in 0..random.below(5) {
        match random.below(12) {
            0 => file.halt(),
            1 => file.resume(),
            2 => file.quote(200_100, 200_300),
            3 => file.length_of_day(random.pick(&[1_140, 1_320])),
            4 => file.length_of_day(1_020),
            5 => file.final_fix(200_000),
            _ => {
                let (year, month) = random.pick(&MONTHS);
                file.final_date(year, month)
            }
        };
    }
}

/// A date that may be final or not: its minutes end at one of the lengths, or don't, and both fixes come.
fn add_date(file: &mut Writer, random: &mut Random) {
    add_start(file, random);
    let minutes = random.pick(&[1_018, 1_018, 1_018, 1_138, 1_318]);
    file.minute_ends(minutes, 200_000);
    for _ in 0..3 {
        add_minute(file, random);
        (0..random.below(4)).for_each(|_| add_trade(file, random));
        file.minute_ends(1, random.pick(&[0, 200_100, 200_300]));
    }
    file.final_fix(random.pick(&HOURLY))
        .fix(random.pick(&HOURLY));
    add_minute(file, random);
    add_trade(file, random);
    file.final_fix(random.pick(&HOURLY)).fix(0).close();
}

/// The second resume is refused by 3 where the contract has ended, and by 4 elsewhere.
#[test]
fn random_dates() {
    let mut random = Random::new(7);
    let (mut met, mut ended) = (BTreeSet::new(), 0);
    for number in 0..300 {
        let mut file = Writer::new();
        (0..4).for_each(|_| add_date(&mut file, &mut random));
        file.resume().resume();
        let (answers, (_, cash)) = same_run(&format!("dates {number}"), &input(&file));
        let has_ended = answers.last() == Some(&Some(Err(3)));
        ended += u32::from(has_ended && cash != [0; ACCOUNTS]);
        met.extend(answers.into_iter().flatten().filter_map(Result::err));
    }
    assert_eq!(met, BTreeSet::from([3, 4, 5, 6, 9, 11, 12, 14]));
    assert!(ended > 60, "{ended} contracts with cash ended");
}

//! Refusals of a final date's calls, and their order.

mod common;

use common::assert_refusals;
use dayformat::{tag, Writer};
use reference::bench_under;
use reference::rules::{RefusalRules, Rules};

#[test]
fn refusal_14_comes_with_a_month_outside_the_table() {
    let mut file = Writer::new();
    let outside = [
        (2_024, 12),
        (2_024, 13),
        (2_025, 0),
        (2_025, 13),
        (2_050, 13),
        (2_050, 0),
        (2_051, 1),
        (2_051, 0),
        (2_035, 255),
        (0, 1),
        (u16::MAX, 12),
        (0, 0),
    ];
    for (year, month) in outside {
        file.final_date(year, month);
    }
    file.length_of_day(1_140);
    let expected: Vec<_> = (1..=12).map(|place| (14, place)).collect();
    assert_refusals(&file, &expected);
}

#[test]
fn months_at_the_ends_of_the_table_are_accepted() {
    for (year, month) in [(2_025, 1), (2_025, 12), (2_050, 1), (2_050, 12)] {
        let mut file = Writer::new();
        file.final_date(year, month);
        assert_refusals(&file, &[]);
    }
}

/// Whatever its month is.
#[test]
fn a_late_final_date_is_refused_by_3() {
    let begins: [fn(&mut Writer) -> &mut Writer; 9] = [
        |file| file.quote(0, 0),
        |file| file.timed_quote(0, 0, 0),
        |file| file.trade((1, 1), 1, 1, 5_000),
        |file| file.two_byte_trade((1, 1), 1, 1, 5_000),
        |file| file.halt(),
        |file| file.minute_ends(1, 0),
        |file| file.length_of_day(1_320),
        |file| file.length_of_day(1_140),
        |file| file.final_date(2_035, 10),
    ];
    for begin in begins {
        let mut file = Writer::new();
        begin(&mut file).final_date(2_035, 10).final_date(2_024, 0);
        assert_refusals(&file, &[(3, 2), (3, 3)]);
    }
}

#[test]
fn a_length_of_day_after_a_final_date_is_refused_by_3() {
    let mut file = Writer::new();
    file.final_date(2_035, 10)
        .length_of_day(1_140)
        .length_of_day(1_320)
        .length_of_day(1_020);
    assert_refusals(&file, &[(3, 2), (3, 3), (3, 4)]);
}

#[test]
fn a_length_of_day_of_1020_is_refused_by_5() {
    let mut file = Writer::new();
    file.length_of_day(1_020).final_date(2_035, 10);
    assert_refusals(&file, &[(5, 1)]);
}

#[test]
fn records_that_are_not_accepted_leave_room_for_a_final_date() {
    let mut file = Writer::new();
    file.length_of_day(1_141)
        .final_date(2_024, 12)
        .final_fix(200_000)
        .fix(200_000)
        .close()
        .resume()
        .quote(1, 1)
        .minute_ends(1, 1)
        .record(tag::FINAL_DATE, &[7, 243])
        .record(tag::FINAL_FIX, &[0; 5])
        .record(200, &[])
        .final_date(2_035, 10) // 12
        .final_date(2_035, 10);
    let refused = [5, 14, 3, 3, 3, 4, 5, 5, 1, 1].into_iter().zip(1..);
    let expected: Vec<_> = refused.chain([(3, 13)]).collect();
    assert_refusals(&file, &expected);
}

/// 3 whatever the value is.
#[test]
fn the_fix_of_the_wrong_kind_is_refused_by_3() {
    let mut file = Writer::new();
    file.minute_ends(1_320, 200_000)
        .final_fix(200_000) // 1,321
        .final_fix(0)
        .fix(200_000)
        .final_fix(200_000) // 1,324
        .close()
        .final_date(2_035, 10)
        .minute_ends(1_020, 200_000) // 1,327 to 2,346
        .fix(200_000) // 2,347
        .fix(0)
        .fix(1)
        .final_fix(200_000) // 2,350
        .fix(200_000)
        .fix(1);
    let expected = [1_321, 1_322, 1_324, 2_347, 2_348, 2_349, 2_351, 2_352];
    assert_refusals(&file, &expected.map(|place| (3, place)));
}

#[test]
fn a_final_date_has_1020_minutes() {
    let mut file = Writer::new();
    file.final_date(2_035, 10)
        .final_fix(200_000) // 2
        .minute_ends(1_019, 0) // 3 to 1,021
        .final_fix(200_000) // 1,022
        .final_fix(1) // 1,023
        .minute_ends(2, 0) // 1,024 and 1,025
        .close() // 1,026
        .final_fix(200_000)
        .final_fix(200_000) // 1,028
        .final_fix(0) // 1,029
        .minute_ends(1, 0) // 1,030
        .close();
    let expected = [2, 1_022, 1_023, 1_025, 1_026, 1_028, 1_029, 1_030];
    assert_refusals(&file, &expected.map(|place| (3, place)));
}

#[test]
fn an_hourly_value_that_is_no_price_is_refused_by_5() {
    let mut file = Writer::new();
    file.final_date(2_035, 10).minute_ends(1_020, 0);
    for value in [0, 1, 4_999, 50_000_001, u32::MAX, 50_000_000, 0] {
        file.final_fix(value); // from 1,022 on
    }
    let refused = (1_022..=1_026).map(|place| (5, place));
    let expected: Vec<_> = refused.chain([(3, 1_028)]).collect();
    assert_refusals(&file, &expected);
}

/// A book that holds one closed day.
struct OneDay;

impl RefusalRules for OneDay {
    fn most_closed_days(&self) -> usize {
        1
    }
}

#[test]
fn the_last_day_that_a_book_holds_may_be_the_final_one() {
    let rules = Rules {
        refusals: &OneDay,
        ..Rules::RIGHT
    };
    let mut file = Writer::new();
    file.final_date(2_035, 10)
        .minute_ends(1_020, 0)
        .final_fix(5_000)
        .close() // 1,023
        .final_date(2_024, 12);
    let expected =
        "final 26\nday 1 price 5000 rate 0 amount 0 valid 0\nrefused 3 record 1024\nend\n";
    let input = [&[10], &file.bytes[..]].concat();
    assert_eq!(bench_under(rules, &input), expected);
}

#[test]
fn a_full_book_refuses_a_final_date_by_3() {
    let rules = Rules {
        refusals: &OneDay,
        ..Rules::RIGHT
    };
    let mut file = Writer::new();
    file.minute_ends(1_320, 0)
        .fix(5_000)
        .close() // 1,322
        .final_date(2_024, 12)
        .final_date(2_035, 10)
        .final_fix(1);
    let expected = "day 1 price 5000 rate 0 amount 0 valid 0\nrefused 3 record 1323\n\
                    refused 3 record 1324\nrefused 3 record 1325\nend\n";
    let input = [&[10], &file.bytes[..]].concat();
    assert_eq!(bench_under(rules, &input), expected);
}

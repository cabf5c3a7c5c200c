//! A contract's last date: the printed Friday, its minutes, its price, its close and what is left.

mod common;

use common::{printout, set_printout, trades};
use dayformat::{tag, Writer};
use reference::c_run;
use reference::call::Month;
use reference::rules::{ExpiryRules, RightLedger};

fn last_friday(year: u16, month: u8) -> u8 {
    RightLedger.last_friday(Month { year, month })
}

/// The first row is document 02's, the others are those of a calendar: four and five Fridays, both ends of
/// the table, months of 28, 29, 30 and 31 days.
#[test]
fn last_fridays() {
    let rows = [
        (2_035, 10, 26),
        (2_025, 1, 31),
        (2_025, 2, 28),
        (2_026, 2, 27),
        (2_026, 12, 25),
        (2_028, 2, 25),
        (2_028, 3, 31),
        (2_032, 2, 27),
        (2_036, 2, 29),
        (2_039, 4, 29),
        (2_047, 2, 22),
        (2_050, 11, 25),
        (2_050, 12, 30),
    ];
    for (year, month, friday) in rows {
        assert_eq!(last_friday(year, month), friday, "{year} {month}");
    }
}

/// From one last Friday to the next it is four weeks or five, and to the month's end less than one.
#[test]
fn last_fridays_are_whole_weeks_apart() {
    let mut days = 0;
    let mut fridays = Vec::new();
    for year in 2_025..=2_050 {
        for month in 1..=12 {
            let of_month = Month { year, month };
            let length = RightLedger.days_of_month(of_month);
            let friday = last_friday(year, month);
            assert!(friday <= length && friday + 7 > length, "{year} {month}");
            fridays.push(days + u32::from(friday));
            days += u32::from(length);
        }
    }
    let weeks = |pair: &[u32]| pair[1] - pair[0] == 28 || pair[1] - pair[0] == 35;
    assert_eq!(fridays.len(), 312);
    assert!(fridays.windows(2).all(weeks));
}

/// A final date without markets, with its fix.
fn final_date(hourly: u32) -> Writer {
    let mut file = Writer::new();
    file.final_date(2_035, 10)
        .minute_ends(1_020, 0)
        .final_fix(hourly);
    file
}

#[test]
fn the_hourly_value_goes_to_the_nearest_dime_a_tie_to_the_even_one() {
    let rows = [
        (5_000, 5_000),
        (5_004, 5_000),
        (5_005, 5_000),
        (5_006, 5_010),
        (5_014, 5_010),
        (5_015, 5_020),
        (200_005, 200_000),
        (200_015, 200_020),
        (200_025, 200_020),
        (200_029, 200_030),
        (49_999_985, 49_999_980),
        (49_999_994, 49_999_990),
        (49_999_995, 50_000_000),
        (50_000_000, 50_000_000),
    ];
    for (hourly, price) in rows {
        let expected = format!("final 26\nday 1 price {price} rate 0 amount 0 valid 0\nend\n");
        assert_eq!(printout(10, &final_date(hourly)), expected);
    }
}

/// Trades and midpoints of the last minute, and the index, give it no price.
#[test]
fn only_the_hourly_value_counts_for_the_price() {
    let mut file = Writer::new();
    file.minute_ends(1_320, 200_000)
        .fix(200_000)
        .close()
        .final_date(2_035, 10)
        .minute_ends(1_019, 200_000)
        .quote(200_100, 200_120)
        .trade((1, 1), 0, 1, 200_300)
        .minute_ends(1, 201_000)
        .final_fix(190_004);
    // The last trade is outside the last minute's market, so its basis is that of the middle.
    let expected = "day 1 price 200000 rate 0 amount 0 valid 0\nfinal 26\n\
                    day 2 price 190000 rate -2000000 amount 38 valid 1\nend\n";
    assert_eq!(printout(10, &file), expected);
}

/// Document 01's example, then a final date with a trade after its fix.
fn example_then_final_date() -> Writer {
    let mut file = Writer::new();
    file.quote(200_100, 200_300)
        .minute_ends(1_319, 200_000)
        .trade((3, 7), 0, 12, 200_200)
        .minute_ends(1, 200_000)
        .fix(0)
        .trade((7, 9), 0, 5, 200_100)
        .close()
        .final_date(2_026, 12)
        .quote(200_100, 200_300)
        .trade((5, 5), 1, 9, 200_001)
        .minute_ends(1_020, 200_000)
        .final_fix(200_015)
        .trade((9, 3), 1, 2, 200_005)
        .close();
    file
}

/// By position, opening position and cost before the clearing:
/// 3: (10 × 200,020 − 12 × 200,200 + 2 × 200,005) × 10 + 10 × −20 × 100 = −41,900
/// 7: (−7 × 200,020 + 7 × 200,200) × 10 − 7 × −20 × 100 = 26,600
/// 9: (−3 × 200,020 + 5 × 200,200 − 2 × 200,005) × 10 − 3 × −20 × 100 = 15,300
const FINAL_CLOSE: &str = "day 1 price 200200 rate 1000000 amount -20 valid 1320\n\
                           acct 3 net 12 cash -24000\n\
                           acct 7 net -7 cash 19000\n\
                           acct 9 net -5 cash 5000\n\
                           final 25\n\
                           day 2 price 200020 rate 1000000 amount -20 valid 1020\n\
                           acct 3 net 0 cash -65900\n\
                           acct 7 net 0 cash 45600\n\
                           acct 9 net 0 cash 20300\n";

#[test]
fn the_final_close_posts_and_then_clears() {
    let file = example_then_final_date();
    assert_eq!(printout(10, &file), format!("{FINAL_CLOSE}end\n"));
    let mut cash = [0; 1_024];
    (cash[3], cash[7], cash[9]) = (-65_900, 45_600, 20_300);
    let accepted = 1_325 + 1_026;
    assert_eq!(c_run(10, &file.bytes), (accepted, Some(([0; 1_024], cash))));
}

#[test]
fn before_the_final_close_the_lists_have_the_positions() {
    let mut file = example_then_final_date();
    file.bytes.truncate(file.bytes.len() - 3);
    let (_, lists) = c_run(10, &file.bytes);
    let (positions, cash) = lists.expect("they are written");
    assert_eq!([positions[3], positions[7], positions[9]], [10, -7, -3]);
    assert_eq!([cash[3], cash[7], cash[9]], [-24_000, 19_000, 5_000]);
}

/// Each would be refused by another number, or accepted, on an ordinary day.
#[test]
fn after_the_final_close_every_call_is_refused_by_3() {
    let mut file = example_then_final_date();
    file.trade((3, 7), 9, 0, 0)
        .trade((3, 7), 0, 1, 200_000)
        .two_byte_trade((1_024, 7), 0, 1, 200_000)
        .quote(1, 1)
        .quote(200_000, 200_010)
        .timed_quote(60_000, 0, 0)
        .timed_quote(0, 0, 0)
        .minute_ends(1, 1)
        .minute_ends(1, 0)
        .halt()
        .resume()
        .fix(1)
        .final_fix(1)
        .close()
        .length_of_day(1)
        .length_of_day(1_140)
        .final_date(2_024, 13)
        .final_date(2_035, 10)
        .record(tag::FINAL_FIX, &[0; 3])
        .record(tag::FINAL_DATE, &[0; 4])
        .record(250, &[]);
    let first = 1_325 + 1_026 + 1;
    let expected: Vec<String> = (0..20)
        .map(|place| {
            let number = if place < 18 { 3 } else { 1 };
            format!("refused {number} record {}\n", first + place)
        })
        .collect();
    let expected = format!("{FINAL_CLOSE}{}end\n", expected.concat());
    assert_eq!(printout(10, &file), expected);
    assert_eq!(c_run(10, &file.bytes).0, 1_325 + 1_026);
}

#[test]
fn after_the_final_close_every_set_is_refused_by_3() {
    let good = ((3, 7), 0, 1, 200_000);
    let mut file = example_then_final_date();
    for list in [vec![good], vec![], vec![good; 501], vec![((3, 7), 3, 0, 0)]] {
        file.set(&trades(&list));
    }
    let first = 1_325 + 1_026 + 1;
    let refused: Vec<String> = (first..first + 4)
        .map(|place| format!("refused 3 record {place}\n"))
        .collect();
    let expected = format!("{FINAL_CLOSE}{}end\n", refused.concat());
    assert_eq!(set_printout(10, &file), expected);
}

/// It neither stops nor begins the date, and 3 comes before 4 after the end.
#[test]
fn a_halt_carries_into_a_final_date_and_over_its_close() {
    let mut file = Writer::new();
    file.halt()
        .minute_ends(1_320, 0)
        .fix(200_000)
        .close() // 1,323
        .final_date(2_050, 12)
        .quote(0, 0) // 1,325
        .minute_ends(1_020, 0)
        .final_fix(200_000)
        .halt() // 2,347
        .close()
        .halt() // 2,349
        .resume();
    let expected = "day 1 price 200000 rate 0 amount 0 valid 0\n\
                    final 30\n\
                    refused 4 record 1325\n\
                    day 2 price 200000 rate 0 amount 0 valid 0\n\
                    refused 4 record 2347\n\
                    refused 3 record 2349\nrefused 3 record 2350\nend\n";
    assert_eq!(printout(10, &file), expected);
}

#[test]
fn a_final_date_may_take_sets() {
    let mut file = Writer::new();
    let set = trades(&[((3, 7), 0, 2, 200_000), ((7, 9), 0, 1, 200_100)]);
    file.final_date(2_035, 10)
        .set(&set)
        .minute_ends(1_020, 0)
        .final_fix(200_104)
        .set(&set)
        .close();
    // 3: 4 × 100 × 10; 9: 2 × 0.
    let expected = "final 26\nday 1 price 200100 rate 0 amount 0 valid 0\n\
                    acct 3 net 0 cash 4000\nacct 7 net 0 cash -4000\nend\n";
    assert_eq!(set_printout(10, &file), expected);
}

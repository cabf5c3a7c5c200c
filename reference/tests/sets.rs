//! What an accepted set leaves: what its trades would leave one by one, at the same point.

mod common;

use common::{assert_set_refusals, printout, set_printout, trades, TwoByteTrade};
use dayformat::{set, Writer};
use reference::{c_run, set_bench};

type AddTrades = fn(&mut Writer, &[TwoByteTrade]);

fn by_set(file: &mut Writer, list: &[TwoByteTrade]) {
    file.set(&trades(list));
}

fn singly(file: &mut Writer, list: &[TwoByteTrade]) {
    file.bytes.extend(trades(list).bytes);
}

/// Lists before, in and after the last minute, after the fix, and on a second date. Each is accepted by
/// set and singly.
fn two_days(add: AddTrades) -> Writer {
    let mut file = Writer::new();
    add(
        &mut file,
        &[((3, 7), 0, 12, 200_200), ((3, 3), 1, 5, 200_001)],
    );
    file.quote(200_100, 200_300).minute_ends(1_318, 200_000);
    add(
        &mut file,
        &[((3, 700), 2, 250, 200_203), ((700, 3), 0, 3, 200_110)],
    );
    file.minute_ends(1, 200_000);
    let list = [
        ((7, 3), 0, 3, 200_100),
        ((7, 3), 2, 300, 100_000),
        ((7, 3), 0, 5, 200_130),
        ((1_023, 7), 0, 1, 200_130),
        ((1_023, 7), 1, 7, 5_000),
    ];
    add(&mut file, &list);
    file.minute_ends(1, 200_100);
    add(&mut file, &[((0, 1_023), 0, 40, 210_000)]);
    file.fix(0);
    add(
        &mut file,
        &[((0, 3), 0, 9, 190_000), ((9, 9), 0, 9, 190_000)],
    );
    file.close().length_of_day(1_140);
    add(
        &mut file,
        &[((3, 0), 0, 1, 200_000), ((9, 0), 2, 250, 200_005)],
    );
    file.minute_ends(1_140, 200_000).fix(0).close();
    file
}

#[test]
fn the_same_list_by_set_or_singly_leaves_the_same() {
    let (sets, singles) = (two_days(by_set), two_days(singly));
    let text = set_printout(10, &sets);
    // (3 × 200,100 + 5 × 200,130 + 200,130) / 9
    assert!(text.starts_with("day 1 price 200120 rate 998032 amount -20 valid 1320\n"));
    assert!(text.contains("\nday 2 price 200020 ") && text.contains("\nacct 9 net 250 "));
    assert!(!text.contains("refused"), "{text}");
    assert_eq!(text, set_printout(10, &singles));
    assert_eq!(text, printout(10, &singles));
}

/// One client's purchase at two prices, by an account that ends flat.
#[test]
fn an_order_allocated_to_two_clients() {
    let mut file = Writer::new();
    let list = [
        ((1, 2), 0, 3, 200_100),
        ((1, 2), 0, 1, 200_200),
        ((300, 1), 1, 2, 200_125),
        ((301, 1), 1, 2, 200_125),
    ];
    file.set(&trades(&list))
        .minute_ends(1_320, 0)
        .fix(200_000)
        .close();
    let expected = "day 1 price 200000 rate 0 amount 0 valid 0\n\
                    acct 2 net -4 cash 5000\n\
                    acct 300 net 2 cash -2500\n\
                    acct 301 net 2 cash -2500\n\
                    end\n";
    assert_eq!(set_printout(10, &file), expected);
}

#[test]
fn an_accepted_set_begins_the_date() {
    for list in [[((3, 7), 0, 1, 5_000)], [((3, 3), 2, 250, 5_001)]] {
        let mut file = Writer::new();
        file.set(&trades(&[]))
            .set(&trades(&[((3, 7), 0, 0, 5_000)]))
            .length_of_day(1_141)
            .set(&trades(&list)) // 4
            .length_of_day(1_140);
        assert_set_refusals(&file, &[(13, 1), (5, 2), (5, 3), (3, 5)]);
    }
}

/// A day of one valid minute with a list between its quote and its end. F − u is in cents of 200,000.
fn rate_after(list: &[TwoByteTrade]) -> String {
    let mut file = Writer::new();
    file.quote(200_100, 200_300);
    by_set(&mut file, list);
    file.minute_ends(1, 200_000)
        .quote(0, 0)
        .minute_ends(1_319, 0)
        .fix(200_000);
    let text = set_printout(1, &file);
    text.split(' ').nth(5).expect("a fix's line").to_string()
}

#[test]
fn the_last_simple_trade_in_list_order_is_the_last_trade() {
    let simple = |price| ((3, 7), 0, 1, price);
    let (spread, block) = (((3, 7), 1, 1, 200_180), ((3, 7), 2, 250, 200_180));
    let rates = [
        rate_after(&[spread, block]),
        rate_after(&[simple(200_150), simple(200_250)]),
        rate_after(&[simple(200_250), simple(200_150)]),
        rate_after(&[simple(200_150), spread, simple(200_250), block, spread]),
        rate_after(&[simple(200_250), simple(200_310)]), // outside: the middle
        rate_after(&[simple(200_310), simple(200_300)]),
    ];
    let expected = [
        "1000000", "1250000", "750000", "1250000", "1000000", "1500000",
    ];
    assert_eq!(rates, expected);
}

/// Only the last minute's simple trades settle; those before, after and of other kinds don't.
#[test]
fn simple_trades_of_the_last_minute_add_to_n_and_gross() {
    let simple = |quantity, price| ((3, 7), 0, quantity, price);
    let mut file = Writer::new();
    file.length_of_day(1_140).minute_ends(1_138, 0);
    by_set(&mut file, &[simple(100, 300_000)]);
    file.minute_ends(1, 0);
    by_set(&mut file, &[simple(1, 200_000), ((3, 7), 1, 9, 400_000)]);
    singly(&mut file, &[simple(1, 200_010)]);
    by_set(
        &mut file,
        &[
            ((7, 7), 0, 1, 200_010),
            ((3, 7), 2, 250, 400_000),
            simple(1, 200_020),
        ],
    );
    file.minute_ends(1, 0);
    by_set(&mut file, &[simple(100, 300_000)]);
    file.fix(0);
    let expected = "day 1 price 200010 rate 0 amount 0 valid 0\nend\n";
    assert_eq!(set_printout(1, &file), expected);
}

#[test]
fn a_set_after_the_fix_counts_in_the_positions_of_that_close() {
    let mut file = Writer::new();
    file.quote(200_100, 200_300)
        .minute_ends(1_320, 200_000)
        .fix(0)
        .set(&trades(&[((7, 9), 0, 5, 200_200), ((9, 3), 0, 1, 200_200)]))
        .close();
    let expected = "day 1 price 200200 rate 1000000 amount -20 valid 1320\n\
                    acct 3 net -1 cash 2000\n\
                    acct 7 net 5 cash -10000\n\
                    acct 9 net -4 cash 8000\n\
                    end\n";
    assert_eq!(set_printout(10, &file), expected);
}

/// What a set adds to v and positions stands for single trades and sets after it; a close frees v.
#[test]
fn later_trades_are_judged_by_what_a_set_left() {
    let large = |buyer, seller| ((buyer, seller), 0, 100_000, 5_000);
    let one = |buyer, seller| [((buyer, seller), 0, 1, 5_000)];
    let mut file = Writer::new();
    by_set(&mut file, &[large(3, 3); 10]); // 1
    by_set(&mut file, &[large(4, 7); 12]); // 2
    singly(&mut file, &one(3, 8)); // 3
    singly(&mut file, &one(4, 8));
    by_set(&mut file, &one(8, 3));
    by_set(&mut file, &one(8, 7)); // 6
    file.minute_ends(1_320, 0).fix(5_000).close(); // 7 to 1,328
    singly(&mut file, &one(3, 8)); // 1,329
    by_set(&mut file, &one(4, 8)); // 1,330
    let expected = [(7, 3), (8, 4), (7, 5), (8, 6), (8, 1_330)];
    assert_set_refusals(&file, &expected);
}

#[test]
fn a_list_of_500_trades_moves_every_account() {
    let list: Vec<_> = (0..500)
        .map(|i| ((i, i + 500), 0, 1 + u32::from(i), 5_000))
        .collect();
    let mut file = Writer::new();
    file.set(&trades(&list));
    file.minute_ends(1_320, 0).fix(5_000).close();
    let text = set_printout(1, &file);
    assert_eq!(text.lines().count(), 1 + 1_000 + 1);
    assert!(text.contains("acct 0 net 1 cash 0\n") && text.contains("acct 499 net 500 cash 0\n"));
    assert!(
        text.contains("acct 500 net -1 cash 0\n") && text.contains("acct 999 net -500 cash 0\n")
    );
}

#[test]
fn a_set_is_one_record_and_sets_no_time() {
    let mut file = Writer::new();
    file.timed_quote(500, 200_100, 200_300)
        .set(&trades(&[((3, 7), 0, 1, 5_000); 3]))
        .timed_quote(499, 200_100, 200_300)
        .set(&trades(&[]));
    assert_set_refusals(&file, &[(11, 3), (13, 4)]);
}

/// In a day file the record is unknown, and so is what a set would be refused for.
#[test]
fn a_day_file_has_no_sets() {
    let mut file = Writer::new();
    file.set(&trades(&[((3, 7), 0, 1, 5_000)]))
        .set(&trades(&[]))
        .record(set::TAG, &[1])
        .length_of_day(1_140)
        .resume(); // 5
    assert_eq!(printout(1, &file), "refused 4 record 5\nend\n");
    assert_eq!(c_run(1, &file.bytes), (1, Some(([0; 1_024], [0; 1_024]))));
    let expected = "refused 13 record 2\nrefused 1 record 3\nrefused 3 record 4\n\
                    refused 4 record 5\nend\n";
    assert_eq!(set_printout(1, &file), expected);
}

#[test]
fn the_bench_counts_65536_bytes() {
    let mut file = Writer::new();
    file.record(77, &vec![0; 65_536 - 1 - 3 - 3 - set::TRADE])
        .set(&trades(&[((1_024, 7), 0, 1, 5_000)]))
        .set(&trades(&[]));
    let whole = [&[1], &file.bytes[..]].concat();
    assert_eq!(set_bench(&whole), "refused 12 record 2\nend\n");
    let longer = [&[1, 77, 0, 0], &file.bytes[..]].concat();
    assert_eq!(set_bench(&longer), "refused 1 record 3\nend\n");
    assert_eq!(set_bench(&[2]), "refused 5 record 0\nend\n");
}

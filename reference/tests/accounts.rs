//! Trades with two-byte accounts: which accounts there are, refusal 12, and what the two tags share.

mod common;

use common::{assert_refusals, printout};
use dayformat::{tag, Writer};
use reference::c_run;
use reference::play::play;
use reference::rules::Rules;

/// So many trades of 100,000 contracts.
fn large_trades(file: &mut Writer, accounts: (u16, u16), count: usize) -> &mut Writer {
    for _ in 0..count {
        file.two_byte_trade(accounts, 0, 100_000, 5_000);
    }
    file
}

#[test]
fn accounts_are_0_to_1_023() {
    let mut file = Writer::new();
    for account in [0, 255, 256, 1_022, 1_023, 1_024, 1_279, 2_047, u16::MAX] {
        file.two_byte_trade((account, 3), 0, 1, 5_000);
        file.two_byte_trade((3, account), 0, 1, 5_000);
        file.two_byte_trade((account, account), 0, 1, 5_000);
    }
    let expected: Vec<_> = (16..=27).map(|place| (12, place)).collect();
    assert_refusals(&file, &expected);
}

#[test]
fn refusals_4_and_5_come_before_12() {
    let mut file = Writer::new();
    file.two_byte_trade((1_024, 1), 0, 0, 5_000)
        .two_byte_trade((1, 1_024), 3, 1, 5_000)
        .two_byte_trade((1_024, 1_024), 0, 1, 5_001)
        .two_byte_trade((1_024, 1), 0, 1, 5_000)
        .halt()
        .two_byte_trade((1_024, 1), 0, 1, 5_000)
        .two_byte_trade((1, 1_024), 0, 0, 5_000);
    assert_refusals(&file, &[(5, 1), (5, 2), (5, 3), (12, 4), (4, 6), (4, 7)]);
}

#[test]
fn refusal_12_comes_before_7_and_8_of_either_account() {
    let mut file = Writer::new();
    large_trades(&mut file, (1_023, 1_022), 12); // positions at ±1,200,000
    large_trades(&mut file, (700, 700), 10); // 13 to 22: v at 2,000,000
    file.two_byte_trade((700, 1_024), 0, 1, 5_000)
        .two_byte_trade((1_024, 700), 0, 1, 5_000)
        .two_byte_trade((1_023, 1_024), 0, 1, 5_000)
        .two_byte_trade((1_024, 1_022), 0, 1, 5_000) // 26
        .two_byte_trade((1_023, 700), 0, 1, 5_000)
        .two_byte_trade((1_023, 1), 0, 1, 5_000);
    let expected = [(12, 23), (12, 24), (12, 25), (12, 26), (7, 27), (8, 28)];
    assert_refusals(&file, &expected);
}

/// 3, 259, 515 and 771 have one low byte.
#[test]
fn each_account_has_limits_of_its_own() {
    let mut file = Writer::new();
    for account in [3, 259, 515, 771] {
        large_trades(&mut file, (account, account), 10);
    }
    for (buyer, seller) in [(4, 260), (516, 772)] {
        large_trades(&mut file, (buyer, seller), 12);
    }
    file.two_byte_trade((771, 0), 0, 1, 5_000)
        .trade((0, 3), 0, 1, 5_000)
        .two_byte_trade((516, 0), 0, 1, 5_000)
        .trade((4, 0), 0, 1, 5_000)
        .two_byte_trade((0, 516), 0, 1, 5_000);
    assert_refusals(&file, &[(7, 65), (7, 66), (8, 67), (8, 68)]);
}

/// A refused trade neither begins the date nor moves the other account.
#[test]
fn a_trade_with_refusal_12_does_nothing() {
    let mut file = Writer::new();
    file.two_byte_trade((3, 1_024), 0, 1, 5_000)
        .length_of_day(1_140)
        .two_byte_trade((1_027, 4), 0, 1, 5_000)
        .minute_ends(1_140, 0)
        .fix(5_010)
        .close();
    let expected = "refused 12 record 1\nrefused 12 record 3\n\
                    day 1 price 5010 rate 0 amount 0 valid 0\nend\n";
    assert_eq!(printout(10, &file), expected);
}

#[test]
fn each_tag_has_its_length() {
    let mut file = Writer::new();
    let body = [0, 3, 0, 7, 0, 0, 0, 0, 12, 0, 3, 13, 64];
    file.record(tag::TWO_BYTE_TRADE, &body)
        .record(tag::TWO_BYTE_TRADE, &body[..11])
        .record(tag::TWO_BYTE_TRADE, &body[2..])
        .record(tag::TRADE, &body)
        .record(tag::TRADE, &[3, 7, 0, 0, 0, 0, 12, 0, 3, 13, 64]);
    assert_refusals(&file, &[(1, 2), (1, 3), (1, 4)]);
    let (accepted, lists) = c_run(10, &file.bytes);
    let (positions, _) = lists.expect("the size is accepted");
    assert_eq!((accepted, positions[3], positions[7]), (2, 24, -24));
}

/// Document 01's example by tag 10, its accounts 3, 7 and 9 here 1,023, 3 and 259.
#[test]
fn accounts_are_printed_in_their_order_and_reported_in_lists_of_1_024() {
    let mut file = Writer::new();
    file.quote(200_100, 200_300)
        .minute_ends(1_319, 200_000)
        .two_byte_trade((1_023, 3), 0, 12, 200_200)
        .minute_ends(1, 200_000)
        .fix(0)
        .two_byte_trade((3, 259), 0, 5, 200_100)
        .close();
    let expected = "day 1 price 200200 rate 1000000 amount -20 valid 1320\n\
                    acct 3 net -7 cash 19000\n\
                    acct 259 net -5 cash 5000\n\
                    acct 1023 net 12 cash -24000\n\
                    end\n";
    assert_eq!(printout(10, &file), expected);
    let (mut positions, mut cash) = ([0; 1_024], [0; 1_024]);
    (positions[3], positions[259], positions[1_023]) = (-7, -5, 12);
    (cash[3], cash[259], cash[1_023]) = (19_000, 5_000, -24_000);
    assert_eq!(c_run(10, &file.bytes), (1_325, Some((positions, cash))));
}

/// None are the lists as they were.
#[test]
fn lists_of_other_lengths_stay_untouched() {
    let mut file = Writer::new();
    file.two_byte_trade((3, 7), 0, 12, 200_200);
    let played = play(10, &file.bytes, Rules::RIGHT).expect("the size is accepted");
    assert_eq!(played.c_run([1_024, 1_024]).0, 1);
    for other in [0, 255, 256, 1_023, 1_025] {
        for lengths in [[other, 1_024], [1_024, other], [other, other]] {
            assert_eq!(played.c_run(lengths), (0, None), "{lengths:?}");
        }
    }
}

type AddTrade = fn(&mut Writer, (u8, u8), u8, u32, u32) -> &mut Writer;

fn by_tag_1(file: &mut Writer, of: (u8, u8), kind: u8, quantity: u32, price: u32) -> &mut Writer {
    file.trade(of, kind, quantity, price)
}

fn by_tag_10(file: &mut Writer, of: (u8, u8), kind: u8, quantity: u32, price: u32) -> &mut Writer {
    file.two_byte_trade((of.0.into(), of.1.into()), kind, quantity, price)
}

/// Trades that begin the date, set the last price or leave it, come after a timed quote, in the last
/// minute, after it and after the fix, and refused ones.
fn day(trade: AddTrade) -> Writer {
    let mut file = Writer::new();
    trade(&mut file, (3, 7), 0, 12, 200_200).length_of_day(1_140);
    trade(&mut file, (3, 7), 0, 0, 200_200).timed_quote(5, 200_100, 200_300);
    trade(&mut file, (255, 0), 2, 250, 200_201).minute_ends(1_318, 200_000);
    trade(&mut file, (0, 0), 1, 3, 200_203).timed_quote(4, 200_100, 200_300);
    trade(&mut file, (7, 255), 0, 1, 200_150).minute_ends(1, 200_000);
    trade(&mut file, (7, 255), 0, 1, 200_250);
    trade(&mut file, (7, 254), 2, 250, 300_000).halt();
    trade(&mut file, (7, 254), 0, 1, 200_250).resume();
    trade(&mut file, (7, 254), 0, 2, 200_260).minute_ends(1, 200_000);
    trade(&mut file, (7, 254), 0, 3, 200_300).fix(0);
    trade(&mut file, (9, 7), 1, 40, 200_100).close();
    file
}

#[test]
fn tag_10_is_tag_1_for_accounts_of_one_byte() {
    let (one, two) = (day(by_tag_1), day(by_tag_10));
    let text = printout(10, &one);
    assert!(text.starts_with("refused 3 record 2\nrefused 5 record 3\n"));
    assert!(
        text.contains("price 200257 ") && text.contains("acct 255 net 248 "),
        "{text}"
    );
    assert_eq!(printout(10, &two), text);
    assert_eq!(c_run(10, &two.bytes), c_run(10, &one.bytes));
}

#[test]
fn both_tags_name_the_accounts_0_to_255() {
    let (mut one, mut two) = (Writer::new(), Writer::new());
    for account in 0..=u8::MAX {
        let quantity = 1 + u32::from(account);
        by_tag_1(&mut one, (account, 7), 0, quantity, 5_000);
        by_tag_10(&mut two, (account, 7), 0, quantity, 5_000);
    }
    let run = c_run(1, &one.bytes);
    assert_eq!(c_run(1, &two.bytes), run);
    let (positions, _) = run.1.expect("the size is accepted");
    assert_eq!([positions[0], positions[255], positions[256]], [1, 256, 0]);
    assert_eq!(positions[7], 8 - 256 * 257 / 2);
}

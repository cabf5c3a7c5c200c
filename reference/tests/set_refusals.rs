//! Refusals of a set: each by itself, their order, and that a refused set changes nothing.

mod common;

use common::{assert_set_refusals, set_printout, trades, TwoByteTrade};
use dayformat::{set, Writer};
use reference::bench_under;
use reference::rules::{RefusalRules, Rules};

const LARGEST: u32 = 100_000;
const GOOD: TwoByteTrade = ((20, 21), 0, 1, 5_000);
/// Refused by 5, by 12, and by 5 before 12.
const FIELD: TwoByteTrade = ((20, 21), 0, 0, 5_000);
const ACCOUNT: TwoByteTrade = ((20, 1_024), 0, 1, 5_000);
const FIELD_AND_ACCOUNT: TwoByteTrade = ((1_024, 21), 3, 1, 5_000);

fn large(buyer: u16, seller: u16) -> TwoByteTrade {
    ((buyer, seller), 0, LARGEST, 5_000)
}

fn one(buyer: u16, seller: u16) -> TwoByteTrade {
    ((buyer, seller), 0, 1, 5_000)
}

/// A set for each list. The places of the refused ones count from 1.
fn assert_sets(lists: &[&[TwoByteTrade]], expected: &[(u8, usize)]) {
    let mut file = Writer::new();
    for list in lists {
        file.set(&trades(list));
    }
    assert_set_refusals(&file, expected);
}

#[test]
fn refusal_13_comes_without_trades_and_with_over_500() {
    let lists = [0, 1, 2, 499, 500, 501, 502, 5_040].map(|count| vec![GOOD; count]);
    for (list, refused) in lists
        .iter()
        .zip([true, false, false, false, false, true, true, true])
    {
        let expected: &[_] = match refused {
            true => &[(13, 1)],
            false => &[],
        };
        assert_sets(&[list], expected);
    }
}

#[test]
fn refusal_13_comes_before_5_12_7_and_8() {
    let last = [FIELD, ACCOUNT, large(3, 7), large(3, 3)];
    for trade in last {
        assert_sets(&[&[trade; 501]], &[(13, 1)]);
        let list = [&[trade], &[GOOD; 500][..]].concat();
        assert_sets(&[&list], &[(13, 1)]);
    }
}

#[test]
fn refusal_4_comes_to_any_set_on_a_halted_book() {
    let lists = [
        vec![GOOD],
        vec![],
        vec![GOOD; 501],
        vec![FIELD],
        vec![ACCOUNT],
    ];
    let mut file = Writer::new();
    file.halt(); // 1
    for list in &lists {
        file.set(&trades(list)); // 2 to 6
    }
    file.resume(); // 7
    for list in &lists {
        file.set(&trades(list)); // 8 to 12
    }
    let halted = (2..=6).map(|place| (4, place));
    let resumed = [(13, 9), (13, 10), (5, 11), (12, 12)];
    assert_set_refusals(&file, &halted.chain(resumed).collect::<Vec<_>>());
}

/// Closes one day at most, so that a full book comes soon.
struct OneDay;

impl RefusalRules for OneDay {
    fn most_closed_days(&self) -> usize {
        1
    }
}

#[test]
fn refusal_3_comes_to_any_set_on_a_full_book() {
    let rules = Rules {
        refusals: &OneDay,
        ..Rules::WITH_SETS
    };
    let mut file = Writer::new();
    file.minute_ends(1_320, 0).halt().fix(5_000).close(); // 1 to 1,323
    for list in [vec![GOOD], vec![], vec![GOOD; 501], vec![FIELD]] {
        file.set(&trades(&list));
    }
    let expected = "day 1 price 5000 rate 0 amount 0 valid 0\n\
                    refused 3 record 1324\nrefused 3 record 1325\n\
                    refused 3 record 1326\nrefused 3 record 1327\nend\n";
    let input = [&[10], &file.bytes[..]].concat();
    assert_eq!(bench_under(rules, &input), expected);
}

#[test]
fn the_first_bad_trade_in_list_order_gives_its_number() {
    let lists: [&[TwoByteTrade]; 10] = [
        &[FIELD],
        &[ACCOUNT],
        &[FIELD_AND_ACCOUNT],
        &[GOOD, FIELD, GOOD],
        &[GOOD, ACCOUNT, GOOD],
        &[GOOD, GOOD, FIELD_AND_ACCOUNT],
        &[FIELD, ACCOUNT],
        &[ACCOUNT, FIELD],
        &[GOOD, ACCOUNT, GOOD, FIELD, FIELD_AND_ACCOUNT],
        &[FIELD_AND_ACCOUNT, ACCOUNT],
    ];
    let numbers = [5, 12, 5, 5, 12, 5, 5, 12, 12, 5];
    let expected: Vec<_> = numbers.into_iter().zip(1..).collect();
    assert_sets(&lists, &expected);
}

#[test]
fn every_field_and_both_accounts_of_each_trade_are_checked() {
    let bad = [
        (5, ((3, 7), 3, 250, 5_000)),
        (5, ((3, 7), 1, LARGEST + 1, 5_000)),
        (5, ((3, 7), 2, 249, 5_000)),
        (5, ((3, 7), 1, 1, 4_999)),
        (5, ((3, 7), 0, 1, 5_001)),
        (12, ((u16::MAX, 7), 2, 250, 5_001)),
        (12, ((3, 1_024), 1, 1, 5_001)),
    ];
    for (number, trade) in bad {
        for place in [0, 1, 250, 499] {
            let mut list = vec![GOOD; 500];
            list[place] = trade;
            assert_sets(&[&list], &[(number, 1)]);
        }
    }
}

#[test]
fn refusals_5_and_12_come_before_7_and_8() {
    let past_both = [large(3, 7); 21];
    assert_sets(&[&past_both], &[(7, 1)]);
    for (number, bad) in [(5, FIELD), (12, ACCOUNT)] {
        assert_sets(&[&[&past_both[..], &[bad]].concat()], &[(number, 1)]);
        assert_sets(&[&[&[bad], &past_both[..]].concat()], &[(number, 1)]);
    }
}

#[test]
fn a_position_may_pass_its_limit_on_the_way() {
    let there = [large(3, 7); 12];
    let back = [large(3, 7), large(7, 3)];
    let mut file = Writer::new();
    file.set(&trades(&there)) // 1: ±1,200,000
        .set(&trades(&back))
        .set(&trades(&[one(3, 8), one(9, 7), one(8, 3), one(7, 9)]));
    file.bytes.extend(trades(&back).bytes); // 4 and 5: singly the first is refused
    assert_set_refusals(&file, &[(8, 4)]);
}

#[test]
fn limits_are_met_exactly_and_passed_by_one() {
    let (there, back) = ([large(3, 7); 10], [large(7, 3); 10]);
    let volume = [there, back].concat(); // v of 2,000,000, no position
    let position = [large(3, 7); 12];
    assert_sets(&[&volume], &[]);
    assert_sets(&[&[&volume[..], &[one(3, 8)]].concat()], &[(7, 1)]);
    assert_sets(
        &[&volume, &[one(3, 8)], &[one(8, 7)], &[one(8, 9)]],
        &[(7, 2), (7, 3)],
    );
    assert_sets(&[&position], &[]);
    assert_sets(&[&[&position[..], &[one(3, 8)]].concat()], &[(8, 1)]);
    assert_sets(
        &[&position, &[one(3, 8)], &[one(8, 7)], &[one(8, 9)]],
        &[(8, 2), (8, 3)],
    );
}

#[test]
fn refusal_7_comes_before_8_whichever_account_and_trade_come_first() {
    let position = [large(1, 2); 13];
    let volume = [large(5, 5); 11];
    assert_sets(&[&[&position[..], &volume].concat()], &[(7, 1)]);
    assert_sets(&[&[&volume[..], &position].concat()], &[(7, 1)]);
    assert_sets(&[&[&position[..], &[large(1, 1); 4]].concat()], &[(7, 1)]);
}

/// The account beyond a limit is the buyer or the seller of the first, a middle or the last trade.
#[test]
fn limits_of_every_account_are_judged() {
    for (number, full) in [
        (7, [large(3, 3); 10].to_vec()),
        (8, [large(3, 7); 12].to_vec()),
    ] {
        let (long, short) = if number == 7 { (3, 3) } else { (3, 7) };
        for beyond in [one(long, 30), one(30, short)] {
            for place in 0..3 {
                let mut list = vec![GOOD, GOOD];
                list.insert(place, beyond);
                assert_sets(&[&full, &list], &[(number, 2)]);
            }
        }
    }
}

#[test]
fn a_trade_with_oneself_counts_twice_in_v_and_leaves_the_position() {
    let full = [large(3, 3); 10];
    assert_sets(&[&full], &[]);
    assert_sets(&[&[&full[..], &[one(3, 3)]].concat()], &[(7, 1)]);
    assert_sets(&[&full, &[one(3, 3)], &[one(3, 4)]], &[(7, 2), (7, 3)]);
    let at_position = [large(3, 7); 12];
    assert_sets(&[&at_position, &[large(3, 3), large(7, 7)]], &[]);
}

/// A day with these sets at its start and before, in and after its last minute. Accounts 3, 4 and 7 end
/// at their limits.
fn day_with(lists: &[Vec<TwoByteTrade>]) -> Writer {
    let mut file = Writer::new();
    let add = |file: &mut Writer| {
        for list in lists {
            file.set(&trades(list));
        }
    };
    add(&mut file);
    file.length_of_day(1_140).quote(200_000, 200_400);
    add(&mut file);
    file.minute_ends(1_139, 200_000);
    add(&mut file);
    file.minute_ends(1, 200_000).fix(0);
    add(&mut file);
    file.set(&trades(&[large(3, 3); 10]))
        .set(&trades(&[large(4, 7); 12]))
        .close();
    file
}

#[test]
fn a_refused_set_changes_nothing() {
    let good = ((3, 7), 0, 50, 200_300);
    let refused = [
        vec![],
        vec![good; 501],
        vec![good, FIELD],
        vec![good, good, ACCOUNT],
        [&[good][..], &[large(3, 3); 10]].concat(),
        [&[good][..], &[large(3, 7); 12]].concat(),
    ];
    let with = set_printout(10, &day_with(&refused));
    let (refusals, rest): (Vec<_>, Vec<_>) =
        with.lines().partition(|line| line.starts_with("refused"));
    let numbers = [13, 13, 5, 12, 7, 8].repeat(4);
    for (line, number) in refusals.iter().zip(&numbers) {
        assert!(line.starts_with(&format!("refused {number} ")), "{line}");
    }
    assert_eq!(refusals.len(), numbers.len());
    let without = set_printout(10, &day_with(&[]));
    assert_eq!(rest, without.lines().collect::<Vec<_>>());
    assert!(without.starts_with("day 1 price 200200 rate 1000000 amount -20 valid 1140\n"));
}

#[test]
fn a_body_of_other_length_is_refused_by_1() {
    let body = &trades(&[GOOD; 2]).bytes[3..];
    let mut file = Writer::new();
    for length in [1, 12, 14, 25] {
        file.record(set::TAG, &body[..length]);
    }
    file.bytes.extend([set::TAG, 0, 13, 0, 3]); // cut off
    let expected: Vec<_> = (1..=5).map(|place| (1, place)).collect();
    assert_set_refusals(&file, &expected);
}

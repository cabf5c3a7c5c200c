//! Document 01's table of fourteen rows, and document 001's examples from the shared table.

use reference::call::Market;
use reference::fraction::Fraction;
use reference::minutes::{Minute, ValidMinute};
use reference::rules::{CallRules, RightLedger};
use reference::settlement::average_basis;
use reference::terms::Terms;

fn terms() -> Terms {
    RightLedger.terms(0)
}

fn basis(price: i128, index: i128) -> i128 {
    let index = u32::try_from(index).expect("an index fits 32 bits");
    RightLedger.half_even(RightLedger.basis(price, index))
}

/// The rate of minutes with these bases, none where one isn't valid.
fn rate(bases: &[Option<i128>]) -> i128 {
    let valid = |(number, basis): (usize, &Option<i128>)| {
        let basis = Fraction::whole((*basis)?);
        Some(ValidMinute { number, basis })
    };
    let minutes: Vec<ValidMinute> = (1..).zip(bases).filter_map(valid).collect();
    RightLedger.half_even(RightLedger.rate(average_basis(&minutes, &RightLedger)))
}

fn clamped(rate: i128) -> i128 {
    RightLedger.half_even(Fraction::whole(rate).clamped(terms().clamp))
}

fn amount(rate: i128, price: i128, size: u8) -> i128 {
    RightLedger.amount(Fraction::whole(rate), price, size)
}

fn market(bid: i128, offer: i128) -> Market {
    let side = |price: i128| u32::try_from(price).expect("a side fits 32 bits");
    Market {
        bid: side(bid),
        offer: side(offer),
    }
}

#[test]
fn the_fourteen_rows_of_document_01() {
    let prices = [
        (8391035, 8391603, -67_687),
        (8396580, 8398313, -206_351),
        (8398605, 8399016, -48_934),
        (8399460, 8399921, -54_881),
        (8400790, 8404832, -480_914),
    ];
    for (price, index, expected) in prices {
        assert_eq!(basis(price, index), expected);
    }
    let mut bases = prices.map(|(_, _, basis)| Some(basis));
    assert_eq!(rate(&bases), -216_752);
    bases[2] = None;
    assert_eq!(rate(&bases), -256_869);
    assert_eq!(clamped(-2_148_730), -2_000_000);
    assert_eq!(amount(250_000, 11_674_700, 1), -29);
    assert_eq!(amount(-180_000, 11_832_400, 1), 21);
    assert_eq!(amount(2_000_000, 12_500, 10), -2);
    assert_eq!(amount(2_000_000, 17_500, 10), -4);
    assert!(RightLedger.spread_is_valid(market(39_900, 40_100), terms()));
    assert!(!RightLedger.spread_is_valid(market(39_900, 40_110), terms()));
}

/// The minutes of the example under way: weight and basis of each.
#[derive(Default)]
struct Example {
    bases: Vec<Option<i128>>,
}

#[test]
fn the_examples_of_document_001() {
    let path = concat!(
        env!("CARGO_MANIFEST_DIR"),
        "/../tests/methodology/table.txt"
    );
    let table = std::fs::read_to_string(path).expect("the table is readable");
    let mut example = Example::default();
    let mut rows = 0;
    for line in table.lines() {
        if line.is_empty() || line.starts_with('#') {
            continue;
        }
        let (name, fields) = line.split_once(' ').expect("a row has fields");
        let fields: Vec<i128> = fields.split_whitespace().map(whole).collect();
        check_row(name, &fields, &mut example, line);
        rows += 1;
    }
    assert_eq!(rows, 3 + 5 + 6 + 6 + 3 + 8);
}

fn whole(field: &str) -> i128 {
    field.parse().expect("a field is a whole number")
}

fn check_row(name: &str, fields: &[i128], example: &mut Example, line: &str) {
    match (name, fields) {
        ("spread", &[bid, offer, last, index, valid, price, spread, places]) => {
            let found = minute(bid, offer, last, index);
            assert_eq!(found.is_some(), valid == 1, "{line}");
            assert_eq!(found.map_or(0, |(price, _)| price), price, "{line}");
            let exact = Fraction::new(2 * (offer - bid) * 10i128.pow(places as u32), offer + bid);
            assert_eq!(RightLedger.half_even(exact), spread, "{line}");
        }
        ("basis", &[price, index, expected, micro]) => {
            assert_eq!(basis(price, index), expected, "{line}");
            let exact = Fraction::new(expected, 1_000);
            assert_eq!(RightLedger.half_even(exact), micro, "{line}");
        }
        ("minute", &[bid, offer, last, index, weight, expected]) => {
            example
                .bases
                .push(minute(bid, offer, last, index).map(|(_, basis)| basis));
            let valid = example.bases.last().copied().flatten();
            assert_eq!(valid.unwrap_or(0), expected, "{line}");
            let count = example.bases.iter().flatten().count() as i128;
            assert_eq!(if valid.is_some() { count } else { 0 }, weight, "{line}");
        }
        ("rate", &[valid, expected]) => {
            let bases = std::mem::take(&mut example.bases);
            assert_eq!(bases.iter().flatten().count() as i128, valid, "{line}");
            assert_eq!(rate(&bases), expected, "{line}");
        }
        ("clamp", &[rate, expected]) => assert_eq!(clamped(rate), expected, "{line}"),
        ("amount", &[rate, price, size, contracts, expected, funding]) => {
            assert_eq!(amount(rate, price, size as u8), expected, "{line}");
            assert_eq!(contracts * expected, funding, "{line}");
        }
        _ => panic!("unknown row: {line}"),
    }
}

/// Futures price and basis of a minute, none when its spread isn't valid.
fn minute(bid: i128, offer: i128, last: i128, index: i128) -> Option<(i128, i128)> {
    let minute = Minute {
        market: Some(market(bid, offer)),
        last: u32::try_from(last).ok().filter(|price| *price != 0),
        index: u32::try_from(index).expect("an index fits 32 bits"),
        halted: false,
    };
    let basis = RightLedger.minute_basis(&minute, terms())?;
    let price = RightLedger.futures_price(minute.market?, minute.last);
    Some((price, RightLedger.half_even(basis)))
}

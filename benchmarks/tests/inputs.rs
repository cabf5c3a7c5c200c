//! The files that are timed are what their names say.

use benchmarks::inputs::{self, Input};
use benchmarks::{run, ACCOUNTS};

/// Positions and cash after a file, every record of which is accepted.
fn lists(input: &Input) -> [[i64; ACCOUNTS]; 2] {
    let mut lists = [[0; ACCOUNTS]; 2];
    let [positions, cash] = &mut lists;
    let accepted = run(input.size, &input.file, positions, cash);
    assert_eq!(accepted, input.records, "{}", input.name);
    lists
}

fn named(name: &str) -> Input {
    let mut all = inputs::all().into_iter();
    all.find(|input| input.name == name)
        .expect("a file of this name")
}

/// The number of accounts with cash; all others have a lower one.
fn active(input: &Input) -> usize {
    let [_, cash] = lists(input);
    let active = cash.iter().filter(|cash| **cash != 0).count();
    assert!(cash[active..].iter().all(|cash| *cash == 0));
    active
}

#[test]
fn every_record_is_accepted() {
    for input in inputs::all() {
        lists(&input);
    }
}

#[test]
fn each_account_is_active() {
    for (name, accounts) in inputs::TWO_BYTE_TRADES {
        assert_eq!(active(&named(name)), accounts as usize);
    }
}

#[test]
fn both_records_of_a_trade_carry_the_same_trades() {
    let one_byte = named("20 days of 5,280 trades, 256 accounts");
    let (two_bytes, _) = inputs::TWO_BYTE_TRADES[0];
    assert!(lists(&one_byte) == lists(&named(two_bytes)));
}

#[test]
fn a_close_is_the_last_record_of_its_day() {
    for accounts in [16, 256, 1_024] {
        let (fixed, closed) = (inputs::fixed_day(accounts), inputs::closed_day(accounts));
        assert_eq!([fixed.closes, closed.closes], [0, 1]);
        assert_eq!(closed.file, [&fixed.file[..], &[7, 0, 0]].concat());
        assert_eq!(active(&fixed), 0);
        assert_eq!(active(&closed), accounts as usize);
    }
}

//! Sets that end at the limits of 7 and 8 or one contract beyond, some of them past these on the way.

use crate::generator::{in_set, Generator, LARGEST};
use crate::profiles::limits::trades;
use dayformat::kind::SIMPLE;
use reference::call::{Account, Trade};

const POSITION: u32 = 1_200_000;

/// An account that is so many contracts short of a limit.
struct Near {
    account: Account,
    limit: Limit,
    contracts: u32,
}

#[derive(Clone, Copy)]
enum Limit {
    Long,
    Short,
    Volume,
}

/// Sets of accounts near their limits, and single trades after them that show what they left.
pub fn limits(generator: &mut Generator) {
    for _ in 0..generator.random.between(1, 2) {
        let length = generator.start_date();
        generator.file.resume();
        sets_near_limits(generator);
        generator.quiet_minutes(length);
        let set_price = generator.near_price();
        generator.fix(set_price);
        generator.close();
    }
}

fn sets_near_limits(generator: &mut Generator) {
    let mut near = accounts_near_limits(generator);
    for _ in 0..generator.random.between(1, 5) {
        let first = generator.random.below(3) as usize;
        let mut list = up_to_limit(generator, &mut near[first]);
        if generator.random.chance(40) {
            let second = (first + 1) % 3;
            list.extend(up_to_limit(generator, &mut near[second]));
        }
        write(generator, &list);
    }
    for Near { account, .. } in near {
        let other = generator.other_account();
        let accounts = generator.random.pick(&[(account, other), (other, account)]);
        trades(generator, accounts, 1, 1);
    }
}

/// One near each limit, filled by a set or singly.
fn accounts_near_limits(generator: &mut Generator) -> [Near; 3] {
    let ((long, short), full) = (generator.two_accounts(), generator.other_account());
    let other = generator.other_account();
    let contracts = generator.random.pick(&[0, 1, 50_000]);
    let mut fill = in_parts(generator, (long, short), POSITION - contracts);
    fill.extend(simple(generator, (full, full), LARGEST, 9));
    fill.extend(in_parts(generator, (full, other), LARGEST));
    fill.extend(in_parts(generator, (other, full), LARGEST - contracts));
    generator.set_or_singly(&fill);
    let near = |account, limit| Near {
        account,
        limit,
        contracts,
    };
    [
        near(long, Limit::Long),
        near(short, Limit::Short),
        near(full, Limit::Volume),
    ]
}

/// A list with which the account ends at its limit, below it, or one contract beyond. What is then left up
/// to the limit is noted as if every list within it were accepted, which most are.
fn up_to_limit(generator: &mut Generator, near: &mut Near) -> Vec<Trade> {
    let contracts = match generator.random.below(5) {
        0..=2 => near.contracts + 1,
        3 => near.contracts,
        _ => generator.random.below(near.contracts + 1),
    };
    let left = near.contracts.checked_sub(contracts);
    near.contracts = left.unwrap_or(near.contracts);
    match near.limit {
        Limit::Long => there_and_back(generator, near.account, contracts, false),
        Limit::Short => there_and_back(generator, near.account, contracts, true),
        Limit::Volume => bought_and_sold(generator, near.account, contracts),
    }
}

/// The account buys so many contracts from others, or sells them, and now and then more of which it is
/// rid again at once or before.
fn there_and_back(
    generator: &mut Generator,
    account: Account,
    contracts: u32,
    sells: bool,
) -> Vec<Trade> {
    let other = generator.other_account();
    let (there, back) = match sells {
        false => ((account, other), (other, account)),
        true => ((other, account), (account, other)),
    };
    let more = generator.random.pick(&[0, 0, 1, 30_000]);
    let there = in_parts(generator, there, contracts + more);
    let back = in_parts(generator, back, more);
    match generator.random.chance(70) {
        true => [there, back].concat(),
        false => [back, there].concat(),
    }
}

/// The account buys and sells so many contracts, of which one with itself counts twice.
fn bought_and_sold(generator: &mut Generator, account: Account, contracts: u32) -> Vec<Trade> {
    let other = generator.other_account();
    let with_itself = generator.random.below(contracts / 2 + 1);
    let with_itself = generator.random.pick(&[0, with_itself, contracts / 2]);
    let rest = contracts - 2 * with_itself;
    let bought = generator.random.below(rest + 1);
    let bought = generator.random.pick(&[0, bought, rest]);
    [
        in_parts(generator, (account, account), with_itself),
        in_parts(generator, (account, other), bought),
        in_parts(generator, (other, account), rest - bought),
    ]
    .concat()
}

/// Parts of so many contracts, none above the largest quantity.
fn in_parts(
    generator: &mut Generator,
    accounts: (Account, Account),
    mut contracts: u32,
) -> Vec<Trade> {
    let mut parts = Vec::new();
    while contracts > 0 {
        let most = contracts.min(LARGEST);
        let part = match generator.random.chance(70) {
            true => most,
            false => generator.random.between(1, most),
        };
        parts.extend(simple(generator, accounts, part, 1));
        contracts -= part;
    }
    parts
}

/// So many equal trades.
fn simple(
    generator: &mut Generator,
    accounts: (Account, Account),
    quantity: u32,
    count: usize,
) -> Vec<Trade> {
    let price = generator.near_ticked_price();
    vec![in_set(accounts, SIMPLE, quantity, price); count]
}

/// Among trades of other accounts; now and then with bad trades, over 500 or in a halt.
fn write(generator: &mut Generator, list: &[Trade]) {
    let list = generator.with_other_trades(list);
    match generator.random.below(25) {
        0 => {
            let list = generator.lengthened(&list, 501);
            generator.set(&list);
        }
        1..=3 => {
            let list = generator.with_bad_trades(&list);
            generator.set(&list);
        }
        4..=6 => {
            generator.file.halt();
            generator.set(&list);
            generator.file.resume();
        }
        _ => generator.set(&list),
    }
}

/// A list with which an account that had no contracts ends beyond a limit, or beyond both.
pub fn past_limit(generator: &mut Generator) -> Vec<Trade> {
    let accounts = generator.two_accounts();
    let oneself = [accounts.0; 2].into();
    let (accounts, count) = match generator.random.below(8) {
        0..=2 => (accounts, 13),
        3 | 4 => (oneself, 11),
        5 | 6 => (accounts, 21),
        _ => (accounts, 497),
    };
    let trades = simple(generator, accounts, LARGEST, count);
    generator.with_other_trades(&trades)
}

//! Limits met exactly and passed by one.

use crate::generator::{Generator, LARGEST};
use dayformat::kind::{BLOCK, SIMPLE, SPREAD};
use reference::call::Account;

/// Positions and volumes filled to their limits, over one or two days.
pub fn positions_and_volumes(generator: &mut Generator) {
    for _ in 0..generator.random.between(1, 3) {
        let length = generator.start_date();
        for _ in 0..generator.random.between(1, 3) {
            match generator.random.below(5) {
                0 => fill_position(generator),
                1 => fill_volume(generator),
                2 => fill_volume_with_oneself(generator),
                3 => fill_volumes_of_one_low_byte(generator),
                _ => pass_both(generator),
            }
        }
        generator.quiet_minutes(length);
        generator.fix_and_close();
    }
}

pub fn trades(generator: &mut Generator, accounts: (Account, Account), count: u32, quantity: u32) {
    let price = generator.near_ticked_price();
    for _ in 0..count {
        generator.trade(accounts, SIMPLE, quantity, price);
    }
}

/// The last 100,000 contracts in parts, with one contract too many tried on the way.
fn fill_exactly(generator: &mut Generator, accounts: (Account, Account)) {
    let part = generator.random.between(1, LARGEST - 2);
    trades(generator, accounts, 1, LARGEST - part);
    trades(generator, accounts, 1, part + 1);
    if generator.random.chance(80) {
        trades(generator, accounts, 1, part);
        trades(generator, accounts, 1, 1);
    }
}

/// To ±1,200,000.
fn fill_position(generator: &mut Generator) {
    let accounts = generator.two_accounts();
    trades(generator, accounts, 11, LARGEST);
    fill_exactly(generator, accounts);
    if generator.random.chance(50) {
        trades(generator, (accounts.0, accounts.0), 1, LARGEST);
    }
}

/// To 2,000,000 by trades to and fro.
fn fill_volume(generator: &mut Generator) {
    let accounts = generator.two_accounts();
    let back = (accounts.1, accounts.0);
    trades(generator, accounts, 10, LARGEST);
    trades(generator, back, 9, LARGEST);
    fill_exactly(generator, back);
}

/// To 2,000,000 by trades with oneself, one of which counts twice.
fn fill_volume_with_oneself(generator: &mut Generator) {
    let (account, other) = generator.two_accounts();
    let oneself = (account, account);
    trades(generator, oneself, 9, LARGEST);
    let part = generator.random.between(1, LARGEST - 2);
    trades(generator, oneself, 1, LARGEST - part);
    trades(generator, oneself, 1, part + 1);
    trades(generator, oneself, 1, part);
    trades(generator, oneself, 1, 1);
    trades(generator, (other, account), 1, 1);
}

/// To 2,000,000 each, with one contract too many.
fn fill_volumes_of_one_low_byte(generator: &mut Generator) {
    let low = generator.random.pick(&[0, 3, 255]);
    for account in [low, low + 256, low + 768] {
        trades(generator, (account, account), 10, LARGEST);
        trades(generator, (account, account), 1, 1);
    }
}

/// One trade past the position of one account and the volume of the same or the other.
fn pass_both(generator: &mut Generator) {
    let (long, short) = generator.two_accounts();
    let third = generator.other_account();
    trades(generator, (long, short), 12, LARGEST);
    trades(generator, (third, third), 10, LARGEST);
    match generator.random.below(3) {
        0 => trades(generator, (long, third), 1, 1),
        1 => trades(generator, (third, short), 1, 1),
        _ => {
            trades(generator, (long, long), 4, LARGEST);
            trades(generator, (long, third - 1), 1, 1);
        }
    }
}

/// Values at and beyond the ends of their fields.
pub fn fields(generator: &mut Generator) {
    let length = generator.start_date();
    for _ in 0..generator.random.between(5, 60) {
        any_field(generator);
        if generator.random.chance(3) {
            generator.file.halt();
        }
        if generator.random.chance(10) {
            generator.file.resume();
        }
    }
    if generator.random.chance(60) {
        generator.quiet_minutes(length);
        any_field(generator);
        generator.fix_and_close();
    }
}

fn any_field(generator: &mut Generator) {
    match generator.random.below(7) {
        0 | 1 => {
            let accounts = generator.two_accounts();
            let kind = generator
                .random
                .pick(&[SIMPLE, SIMPLE, SPREAD, SPREAD, BLOCK, BLOCK, 3, 255]);
            let quantity = generator.random.pick(&[
                0,
                1,
                1,
                249,
                250,
                250,
                251,
                99_999,
                100_000,
                100_001,
                u32::MAX,
            ]);
            let price = edge_price(generator);
            generator.trade(accounts, kind, quantity, price);
        }
        2 | 3 => {
            let (bid, offer) = (edge_price(generator), edge_price(generator));
            generator.quote(bid, offer);
        }
        4 => {
            let index = edge_price(generator);
            generator.file.minute_ends(1, index);
        }
        5 => generator.any_length_of_day(),
        _ => {
            let price = edge_price(generator);
            generator.any_fix(price);
        }
    }
}

pub fn edge_price(generator: &mut Generator) -> u32 {
    let near = generator.near_ticked_price();
    generator.random.pick(&[
        0,
        1,
        4_990,
        4_999,
        5_000,
        5_000,
        5_001,
        5_010,
        near,
        near,
        near,
        near + 1,
        near + 5,
        near + 10,
        49_999_990,
        49_999_999,
        50_000_000,
        50_000_000,
        50_000_001,
        50_000_010,
        u32::MAX,
    ])
}

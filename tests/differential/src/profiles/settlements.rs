//! Settlement prices, positions and cash over days.

use crate::generator::Generator;
use dayformat::kind::SIMPLE;

/// Trades of each kind before, in and after the last minute.
pub fn last_minute(generator: &mut Generator) {
    for _ in 0..generator.random.between(1, 5) {
        let length = generator.start_date();
        generator.tight_quote();
        generator.quiet_minutes(length - 2);
        some_trades(generator);
        generator.quiet_minutes(1);
        match generator.random.chance(50) {
            true => tied_trades(generator),
            false => some_trades(generator),
        }
        generator.quiet_last_minute();
        some_trades(generator);
        generator.fix_and_close();
    }
}

fn some_trades(generator: &mut Generator) {
    for _ in 0..generator.random.below(4) {
        generator.any_trade();
    }
}

/// Four contracts one or three to one at neighbouring ticks: the average is a half cent. Three
/// contracts two to one: it is a sixth of a cent below one.
fn tied_trades(generator: &mut Generator) {
    let accounts = generator.two_accounts();
    let price = generator.near_ticked_price().min(49_999_980);
    let (first, second) = generator.random.pick(&[(1, 3), (3, 1), (2, 1)]);
    generator.trade(accounts, SIMPLE, first, price);
    generator.trade(accounts, SIMPLE, second, price + 10);
    if generator.random.chance(20) {
        generator.trade((accounts.0, accounts.0), SIMPLE, 4, price);
    }
}

/// Days that settle by the index, their market having ended, or can't until a set price comes.
pub fn index_days(generator: &mut Generator) {
    if generator.random.chance(40) {
        // So near an end of the field that the index gives no price now and then.
        generator.level = generator.random.pick(&[5_010, 49_990_000]);
    }
    for _ in 0..generator.random.between(2, 6) {
        let length = generator.start_date();
        if generator.random.chance(40) {
            generator.any_trade();
        }
        if generator.random.chance(40) {
            generator.tight_quote();
        }
        generator.quiet_minutes(length - 1);
        if generator.random.chance(90) {
            generator.file.quote(0, 0);
        }
        let index = last_index(generator);
        generator.file.minute_ends(1, index);
        generator.fix(0);
        if generator.random.chance(60) {
            let set_price = last_index(generator);
            generator.fix(set_price);
        }
        if generator.random.chance(70) {
            let set_price = generator.near_price();
            generator.fix(set_price);
        }
        generator.close();
    }
}

fn last_index(generator: &mut Generator) -> u32 {
    match generator.random.below(8) {
        0 | 1 => 0,
        2 => generator.random.between(5_000, 5_100),
        3 => generator.random.between(49_999_000, 50_000_000),
        _ => generator.near_price(),
    }
}

/// As many days as fit, with positions carried through them.
pub fn many_days(generator: &mut Generator) {
    for _ in 0..7 {
        let length = generator.start_date();
        if generator.random.chance(70) {
            generator.tight_quote();
        }
        for _ in 0..generator.random.below(3) {
            generator.any_trade();
        }
        let busy = generator.random.below(3) as usize;
        generator.minutes(length - 1, busy, new_market);
        generator.quiet_last_minute();
        generator.fix_and_close();
    }
}

fn new_market(generator: &mut Generator) -> usize {
    generator.tight_quote();
    0
}

/// Trades that leave no position, no cash, or neither.
pub fn round_trips(generator: &mut Generator) {
    let price = generator.near_ticked_price();
    for _ in 0..generator.random.between(1, 5) {
        let length = generator.start_date();
        let (first, second) = generator.two_accounts();
        let quantity = generator.random.between(1, 9);
        generator.trade((first, second), SIMPLE, quantity, price);
        if generator.random.chance(60) {
            generator.trade((second, first), SIMPLE, quantity, price);
        }
        if generator.random.chance(40) {
            let other = generator.near_ticked_price();
            generator.trade((first, first), SIMPLE, quantity, other);
        }
        if generator.random.chance(30) {
            generator.tight_quote();
        }
        generator.quiet_minutes(length);
        generator.fix(price);
        generator.close();
    }
}

/// Halts that outlast the day, and what comes on the next one.
pub fn carried_halts(generator: &mut Generator) {
    for _ in 0..generator.random.between(2, 5) {
        let length = generator.start_date();
        if generator.random.chance(60) {
            generator.any_trade();
            generator.any_quote();
            generator.file.resume();
        }
        generator.tight_quote();
        generator.quiet_minutes(length);
        let set_price = generator.near_price();
        let halt_first = generator.random.chance(50);
        if halt_first {
            generator.file.halt();
        }
        generator.fix(set_price);
        if !halt_first && generator.random.chance(60) {
            generator.file.halt();
        }
        generator.close();
    }
}

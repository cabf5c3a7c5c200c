//! Last minutes without simple trades, and the times of quotes.

use crate::generator::Generator;
use dayformat::kind::{BLOCK, SPREAD};
use reference::terms::END_OF_MINUTE;

/// Days whose market changes a few times before, in and after the last minute.
pub fn quiet_last_minutes(generator: &mut Generator) {
    for _ in 0..generator.random.between(1, 6) {
        let length = generator.start_date();
        generator.file.resume();
        if generator.random.chance(60) {
            generator.any_quote();
        }
        generator.quiet_minutes(length - 2);
        changes(generator, 3);
        generator.quiet_minutes(1);
        changes(generator, 6);
        generator.quiet_minutes(1);
        changes(generator, 2);
        fix_twice(generator);
        generator.close();
    }
}

fn changes(generator: &mut Generator, most: u32) {
    for _ in 0..generator.random.below(most + 1) {
        match generator.random.below(20) {
            0..=8 => timed_market(generator),
            9..=12 => untimed_market(generator),
            13 | 14 => generator.any_quote(),
            15 | 16 => generator.one_sided_quote(),
            17 => halt(generator),
            18 => {
                generator.file.resume();
            }
            _ => other_trade(generator),
        }
    }
}

/// At both ends of the prices: the lowest market, the highest and the widest.
const OUTERMOST: [(u32, u32); 3] = [
    (5_000, 5_010),
    (49_999_990, 50_000_000),
    (5_000, 50_000_000),
];

/// A market of any width.
fn market(generator: &mut Generator) -> (u32, u32) {
    if generator.random.chance(5) {
        return generator.random.pick(&OUTERMOST);
    }
    let bid = generator.near_ticked_price().min(49_000_000);
    let ticks = generator.random.pick(&[1, 2, 3, 10, 100, bid / 500]);
    (bid, bid + 10 * ticks)
}

fn untimed_market(generator: &mut Generator) {
    let (bid, offer) = market(generator);
    generator.file.quote(bid, offer);
}

/// At the latest time or later, seldom before it.
fn timed_market(generator: &mut Generator) {
    let (bid, offer) = market(generator);
    let time = match generator.random.chance(80) {
        true => generator.later_time(20_000),
        false => generator.any_time(),
    };
    generator.file.timed_quote(time, bid, offer);
}

fn halt(generator: &mut Generator) {
    generator.file.halt();
    if generator.random.chance(70) {
        generator.file.resume();
    }
}

/// A trade that is no trade for settlement.
fn other_trade(generator: &mut Generator) {
    let accounts = generator.two_accounts();
    let (kind, price) = (
        generator.random.pick(&[SPREAD, BLOCK]),
        generator.near_price(),
    );
    generator.trade(accounts, kind, 250, price);
}

/// Mostly without a set price, then with one.
fn fix_twice(generator: &mut Generator) {
    if generator.random.chance(80) {
        generator.fix(0);
    }
    let set_price = generator.near_price();
    generator.fix(set_price);
}

/// Few milliseconds, or equal shares of the minute, so that averages end in a half.
pub fn half_cents(generator: &mut Generator) {
    for _ in 0..generator.random.between(2, 6) {
        let length = generator.start_date();
        generator.file.resume();
        if generator.random.chance(30) {
            generator.tight_quote();
        }
        generator.quiet_minutes(length - 1);
        shares_of_the_minute(generator);
        generator.quiet_minutes(1);
        fix_twice(generator);
        generator.close();
    }
}

const STARTS_AND_SHARES: [(u32, u32); 6] = [
    (0, 1),
    (0, 1),
    (1, 2),
    (59_998, 1),
    (0, 15_000),
    (0, 30_000),
];

/// Markets that follow each other, mostly for equal times, up to the end of the minute or an end of
/// their own.
fn shares_of_the_minute(generator: &mut Generator) {
    let (mut time, share) = generator.random.pick(&STARTS_AND_SHARES);
    for _ in 0..generator.random.between(2, 4) {
        odd_market(generator, time);
        time += share * generator.random.pick(&[1, 1, 1, 2]);
        if time >= END_OF_MINUTE.into() {
            return;
        }
    }
    let time = time as u16;
    match generator.random.below(3) {
        0 => generator.file.timed_quote(time, 0, 0),
        1 => generator.file.timed_quote(time, generator.level, 0),
        _ => generator.file.timed_quote(time, 5_000, 5_010).halt(),
    };
}

/// One of a few midpoints at the level, half of them odd multiples of 5.
fn odd_market(generator: &mut Generator, time: u32) {
    let bid = (generator.level + 10 * generator.random.below(3)).min(49_999_000);
    let offer = bid + 10 * generator.random.between(1, 4);
    generator.file.timed_quote(time as u16, bid, offer);
}

/// Timed quotes in the first minute, around the last one and after the fix.
pub fn times_of_a_minute(generator: &mut Generator) {
    for _ in 0..generator.random.between(1, 4) {
        let length = generator.start_date();
        generator.file.resume();
        times(generator);
        let early = generator.random.between(1, 5) as usize;
        generator.quiet_minutes(early);
        times(generator);
        generator.quiet_minutes(length - 2 - early);
        times(generator);
        generator.quiet_minutes(1);
        times(generator);
        generator.quiet_minutes(1);
        times(generator);
        fix_twice(generator);
        if generator.random.chance(50) {
            one_millisecond_back(generator);
        }
        times(generator);
        generator.close();
    }
}

fn times(generator: &mut Generator) {
    for _ in 0..generator.random.below(6) {
        match generator.random.below(13) {
            0 => generator.any_quote(),
            1 => {
                generator.file.resume();
            }
            2 => {
                halt(generator);
                one_millisecond_back(generator);
            }
            3 | 4 => one_millisecond_back(generator),
            5 => other_trade(generator),
            _ => {
                let (bid, offer) = market_or_not(generator);
                generator.timed_quote(bid, offer);
            }
        }
    }
}

/// Now and then it is one-sided, crossed or off the tick.
fn market_or_not(generator: &mut Generator) -> (u32, u32) {
    let price = generator.near_ticked_price();
    match generator.random.below(8) {
        0 => (price + 1, price + 10),
        1 => (price, price),
        2 => (price, 0),
        _ => (price, price + 10),
    }
}

fn one_millisecond_back(generator: &mut Generator) {
    let time = generator.latest_time().saturating_sub(1);
    let (bid, offer) = market_or_not(generator);
    generator.file.timed_quote(time, bid, offer);
}

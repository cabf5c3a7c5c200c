//! Markets, valid minutes, rates and amounts.

use crate::generator::Generator;
use dayformat::kind::{BLOCK, SIMPLE, SPREAD};
use reference::terms::FULL_DAY;

/// One or two days with everything in them.
pub fn busy_days(generator: &mut Generator) {
    for _ in 0..generator.random.between(1, 2) {
        let length = generator.start_date();
        generator.file.resume();
        let busy = generator.random.between(5, 600) as usize;
        generator.minutes(length - 1, busy, Generator::busy_minute);
        generator.busy_minute();
        generator.quiet_last_minute();
        generator.fix_and_close();
    }
}

/// Days with few valid minutes, so that each basis and the rate's tie show.
pub fn few_valid_minutes(generator: &mut Generator) {
    for _ in 0..generator.random.between(2, 5) {
        let length = generator.start_date();
        let valid = generator.random.between(1, 12) as usize;
        generator.minutes(length - 1, valid, one_valid_minute);
        generator.quiet_last_minute();
        generator.fix_and_close();
    }
}

/// A market that ends with its minute, and perhaps a last trade within it.
fn one_valid_minute(generator: &mut Generator) -> usize {
    generator.tight_quote();
    if generator.random.chance(40) {
        generator.any_trade();
    }
    if generator.random.chance(80) {
        generator.one_sided_quote();
    }
    let index = match generator.random.chance(30) {
        // A multiple of 2^10 gives the basis a tie.
        true => (generator.level / 5_120).max(1) * 5_120,
        false => generator.near_price(),
    };
    generator.file.minute_ends(1, index.min(50_000_000));
    1
}

/// Days whose amount is a half penny, on both sides of zero.
pub fn half_pennies(generator: &mut Generator) {
    const INDEX: u32 = 1_000_000;
    let full = usize::from(FULL_DAY);
    let mut minutes_left = 7 * full - 200;
    while minutes_left > full {
        let length = generator.start_date();
        minutes_left -= length;
        // Rate × price × size is an odd multiple of 5 × 10^10.
        let (thousandths, unit) = generator.random.pick(&[
            (5_000, 25_000),
            (2_000, 25_000),
            (1_000, 50_000),
            (500, 100_000),
            (100, 500_000),
        ]);
        let futures = match generator.random.chance(50) {
            true => INDEX + thousandths,
            false => INDEX - thousandths,
        };
        disturbed_start(generator, INDEX);
        generator.file.quote(futures - 10, futures + 10);
        generator.minute_ends(length - 2, INDEX);
        let odd = 2 * generator.random.below(20) + 1;
        let price = (odd * unit / u32::from(generator.size)).max(5_000);
        half_penny_fix(generator, price);
    }
}

/// A first valid minute whose basis moves the rate by less than a half nano.
fn disturbed_start(generator: &mut Generator, index: u32) {
    if generator.random.chance(60) {
        let bid = index - 300 + 10 * generator.random.below(60);
        generator.file.quote(bid, bid + 20);
    }
    generator.file.minute_ends(1, index);
}

fn half_penny_fix(generator: &mut Generator, price: u32) {
    let accounts = generator.two_accounts();
    let by_trade = price.is_multiple_of(10) && generator.random.chance(50);
    if by_trade {
        generator.trade(accounts, SIMPLE, 2, price);
    }
    generator.file.minute_ends(1, 1_000_000);
    generator.fix(if by_trade { 0 } else { price });
    if generator.random.chance(50) {
        generator.trade(accounts, SPREAD, 3, price);
    }
    generator.close();
}

/// Spreads at 0.005 and a tick beyond, with trades at, within and outside them.
pub fn spread_edges(generator: &mut Generator) {
    for _ in 0..generator.random.between(1, 4) {
        let length = generator.start_date();
        let busy = generator.random.between(1, 8) as usize;
        generator.minutes(length - 1, busy, spread_edge);
        generator.quiet_minutes(1);
        generator.fix_and_close();
    }
}

fn spread_edge(generator: &mut Generator) -> usize {
    let unit = (generator.level / 4_000).clamp(2, 12_000) * 10;
    let (bid, offer) = match generator.random.below(4) {
        0 => (399 * unit - 10, 401 * unit),
        1 => (399 * unit, 401 * unit + 10),
        _ => (399 * unit, 401 * unit),
    };
    let last = generator
        .random
        .pick(&[bid, offer, bid - 10, offer + 10, bid + 10, offer - 10]);
    let accounts = generator.two_accounts();
    let kind = generator.random.pick(&[SIMPLE, SPREAD, BLOCK]);
    generator.quote(bid, offer);
    if generator.random.chance(70) {
        generator.trade(accounts, kind, 250, last);
    }
    let index = generator.random.between(bid, offer);
    generator.file.minute_ends(1, index);
    generator.quote(0, 0);
    1
}

/// Blocks and spread trades around simple ones, in any minute and in the last.
pub fn last_trades(generator: &mut Generator) {
    around_market(generator, trades_of_each_kind);
}

/// Days with a market at the level, and such events in some minutes and in the last.
pub fn around_market(generator: &mut Generator, events: fn(&mut Generator) -> usize) {
    for _ in 0..generator.random.between(1, 5) {
        let length = generator.start_date();
        let (bid, offer) = market_at_level(generator);
        generator.quote(bid, offer);
        let busy = generator.random.between(1, 8) as usize;
        generator.minutes(length - 1, busy, events);
        events(generator);
        generator.quiet_last_minute();
        generator.fix_and_close();
    }
}

/// A market around the level, within the spread limit.
fn market_at_level(generator: &Generator) -> (u32, u32) {
    let half = (generator.level / 10_000 * 10).max(10);
    (generator.level - half, generator.level + half)
}

fn trades_of_each_kind(generator: &mut Generator) -> usize {
    for _ in 0..generator.random.between(1, 4) {
        let accounts = generator.two_accounts();
        let (kind, price) = kind_and_price_around_market(generator);
        generator.trade(accounts, kind, 250, price);
    }
    0
}

/// At a side of that market, within it or outside.
pub fn kind_and_price_around_market(generator: &mut Generator) -> (u8, u32) {
    let (bid, offer) = market_at_level(generator);
    let within = generator.random.between(bid, offer) / 10 * 10;
    let prices = [bid - 10, bid, within, within, offer, offer + 10];
    let price = generator.random.pick(&prices);
    let kind = generator.random.pick(&[SIMPLE, SPREAD, BLOCK]);
    let off_the_tick = match kind {
        SIMPLE => 0,
        _ => generator.random.below(10),
    };
    (kind, price + off_the_tick)
}

/// One-sided markets, halts and resumes within and across minutes.
pub fn market_changes(generator: &mut Generator) {
    for _ in 0..generator.random.between(1, 4) {
        let length = generator.start_date();
        let busy = generator.random.between(1, 25) as usize;
        generator.minutes(length - 1, busy, market_change);
        generator.quiet_last_minute();
        generator.fix_and_close();
        if generator.random.chance(30) {
            generator.file.resume();
        }
    }
}

fn market_change(generator: &mut Generator) -> usize {
    let mut ended = 0;
    generator.file.resume();
    generator.tight_quote();
    for _ in 0..generator.random.between(1, 4) {
        match generator.random.below(8) {
            0 => {
                generator.quiet_minutes(1);
                ended += 1;
            }
            1 | 2 => generator.one_sided_quote(),
            3 => generator.wide_quote(),
            4 => {
                generator.file.halt();
            }
            5 => {
                generator.file.halt().resume();
            }
            6 => generator.any_trade(),
            _ => generator.tight_quote(),
        }
    }
    ended
}

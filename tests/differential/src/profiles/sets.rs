//! Sets of trades: what they leave, and their refusals.

mod limits;

pub use limits::limits;

use crate::generator::{in_set, Generator};
use crate::profiles::files::up_to_bench_limit;
use crate::profiles::markets::{around_market, kind_and_price_around_market};
use dayformat::{body_length, set, tag};
use limits::past_limit;
use reference::call::Trade;
use reference::terms::{FULL_DAY, SHORT_DAY};

/// A list with so many trades just fits the bytes that count.
const ALMOST_ALL_BYTES: usize = 5_000;

/// Sets among quotes and trades of the same accounts, before, in and after the last minute.
pub fn among_calls(generator: &mut Generator) {
    for _ in 0..generator.random.between(1, 3) {
        let length = generator.start_date();
        generator.file.resume();
        calls(generator, 6);
        generator.quiet_minutes(length - 2);
        calls(generator, 4);
        generator.quiet_minutes(1);
        calls(generator, 6);
        generator.quiet_minutes(1);
        fix_and_close(generator);
    }
}

fn calls(generator: &mut Generator, most: u32) {
    for _ in 0..generator.random.below(most + 1) {
        match generator.random.below(12) {
            0..=4 => good_set(generator),
            5 => any_set(generator),
            6 | 7 => generator.any_trade(),
            8 => generator.any_quote(),
            9 => generator.tight_quote(),
            10 => set_between_times(generator),
            _ => {
                good_set(generator);
                generator.any_length_of_day();
            }
        }
    }
}

fn good_set(generator: &mut Generator) {
    let trades = generator.good_list();
    generator.set(&trades);
}

/// A set, and a quote that runs back by a millisecond behind the one before the set.
fn set_between_times(generator: &mut Generator) {
    let bid = generator.near_ticked_price().min(49_999_000);
    let time = generator.later_time(20_000);
    generator.file.timed_quote(time, bid, bid + 10);
    good_set(generator);
    let back = time.saturating_sub(1);
    generator.file.timed_quote(back, bid, bid + 20);
}

/// A fix that should find a price, with sets before and after it, and the close.
fn fix_and_close(generator: &mut Generator) {
    if generator.random.chance(30) {
        any_set(generator);
    }
    if generator.random.chance(60) {
        generator.fix(0);
    }
    let set_price = generator.near_price();
    generator.fix(set_price);
    for _ in 0..generator.random.below(3) {
        good_set(generator);
    }
    if generator.random.chance(10) {
        generator.file.halt();
    }
    generator.close();
}

fn any_set(generator: &mut Generator) {
    let trades = any_list(generator);
    generator.set(&trades);
}

/// A list that is accepted, or one that meets any refusal of a list.
fn any_list(generator: &mut Generator) -> Vec<Trade> {
    let good = generator.good_list();
    match generator.random.below(10) {
        0 | 1 => Vec::new(),
        2 | 3 => generator.with_bad_trades(&good),
        4 | 5 => past_limit(generator),
        6 => {
            let past_limit = past_limit(generator);
            generator.with_bad_trades(&past_limit)
        }
        _ => good,
    }
}

/// Bad trades, of one number or of both, in any place of a list.
pub fn bad_trades(generator: &mut Generator) {
    for _ in 0..generator.random.between(1, 2) {
        let length = generator.start_date();
        generator.file.resume();
        lists_with_bad_trades(generator);
        generator.quiet_minutes(length - 1);
        lists_with_bad_trades(generator);
        generator.quiet_minutes(1);
        fix_and_close(generator);
    }
}

fn lists_with_bad_trades(generator: &mut Generator) {
    for _ in 0..generator.random.between(1, 5) {
        let trades = match generator.random.chance(80) {
            true => generator.good_list(),
            false => past_limit(generator),
        };
        let trades = generator.with_bad_trades(&trades);
        generator.set(&trades);
        if generator.random.chance(30) {
            good_set(generator);
        }
    }
}

/// Lists of 499, 500, 501 and more trades, each with one of the shorter lists in it.
pub fn long_lists(generator: &mut Generator) {
    let length = generator.start_date();
    for _ in 0..generator.random.between(1, 4) {
        let trades = any_list(generator);
        let count = match generator.random.chance(3) {
            true => ALMOST_ALL_BYTES,
            false => generator.random.pick(&[499, 500, 500, 501, 501, 502]),
        };
        let trades = generator.lengthened(&trades, count);
        generator.set(&trades);
    }
    generator.quiet_minutes(length - 1);
    if generator.random.chance(30) {
        long_good_set(generator);
    }
    generator.quiet_minutes(1);
    fix_and_close(generator);
}

fn long_good_set(generator: &mut Generator) {
    let trades = generator.good_list();
    let trades = generator.lengthened(&trades, 500);
    generator.set(&trades);
}

/// Sets of every kind in halts, before and after them, and on dates that begin halted.
pub fn halts(generator: &mut Generator) {
    for _ in 0..generator.random.between(1, 3) {
        let length = generator.start_date();
        sets_in_halts(generator);
        if generator.random.chance(50) {
            generator.any_length_of_day();
        }
        generator.quiet_minutes(length - 1);
        sets_in_halts(generator);
        generator.quiet_minutes(1);
        if generator.random.chance(60) {
            generator.file.resume();
        }
        fix_and_close(generator);
    }
}

fn sets_in_halts(generator: &mut Generator) {
    for _ in 0..generator.random.below(7) {
        match generator.random.below(6) {
            0 => {
                generator.file.resume();
            }
            1 => {
                generator.file.halt();
            }
            _ => short_or_long_set(generator),
        }
    }
}

fn short_or_long_set(generator: &mut Generator) {
    let mut trades = any_list(generator);
    if generator.random.chance(15) {
        trades = generator.lengthened(&trades, 501);
    }
    generator.set(&trades);
}

/// A length of day after a set that begins the date, and after sets that begin nothing.
pub fn starts_of_dates(generator: &mut Generator) {
    for _ in 0..generator.random.between(2, 5) {
        for _ in 0..generator.random.below(3) {
            refused_set(generator);
        }
        let length = match generator.random.chance(60) {
            true => generator.length_of_day(SHORT_DAY),
            false => {
                good_set(generator);
                FULL_DAY.into()
            }
        };
        for _ in 0..generator.random.below(3) {
            generator.any_length_of_day();
        }
        generator.quiet_minutes(length);
        fix_and_close(generator);
    }
}

fn refused_set(generator: &mut Generator) {
    let good = generator.good_list();
    let trades = match generator.random.below(8) {
        0 | 1 => Vec::new(),
        2 | 3 => generator.lengthened(&good, 501),
        4 => past_limit(generator),
        _ => generator.with_bad_trades(&good),
    };
    generator.set(&trades);
}

/// Sets on a final date, between its fix and its close, and after its end.
pub fn final_dates(generator: &mut Generator) {
    if generator.random.chance(40) {
        good_set(generator);
        generator.quiet_minutes(FULL_DAY.into());
        fix_and_close(generator);
    }
    if generator.random.chance(20) {
        good_set(generator);
        generator.late_final_date();
        return;
    }
    for _ in 0..generator.random.below(3) {
        refused_set(generator);
    }
    let length = generator.final_date();
    calls(generator, 4);
    generator.quiet_minutes(length);
    fix_and_close(generator);
    sets_in_halts(generator);
    generator.any_trade();
}

/// Sets of all kinds of trades around a market, in any minute and in the last.
pub fn last_trades(generator: &mut Generator) {
    around_market(generator, set_around_market);
}

fn set_around_market(generator: &mut Generator) -> usize {
    let count = generator.random.between(1, 4);
    let trade = |_| {
        let accounts = generator.two_accounts();
        let (kind, price) = kind_and_price_around_market(generator);
        let quantity = generator.random.between(250, 255);
        in_set(accounts, kind, quantity, price)
    };
    let trades: Vec<Trade> = (0..count).map(trade).collect();
    generator.set(&trades);
    0
}

/// Sets and other records whose bodies have no plan, some sets of another length.
pub fn random_bodies(generator: &mut Generator) {
    for _ in 0..generator.random.below(40) {
        let tag = match generator.random.chance(60) {
            true => set::TAG,
            false => generator.random.pick(&tag::KNOWN),
        };
        let trades = generator.random.below(4) as usize;
        let other = generator.random.pick(&[0, 0, 0, 1, 12]);
        let length = body_length(tag).unwrap_or(trades * set::TRADE + other);
        let body: Vec<u8> = (0..length).map(|_| generator.random.byte()).collect();
        generator.file.record(tag, &body);
    }
}

/// Sets around the end of the 65,536 bytes.
pub fn bench_limit(generator: &mut Generator) {
    up_to_bench_limit(generator, 60);
    for _ in 0..4 {
        any_set(generator);
    }
}

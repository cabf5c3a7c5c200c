//! One profile per theme; the seed chooses which one writes the input.

mod accounts;
mod days;
mod expiry;
mod files;
mod lengths;
mod limits;
mod markets;
mod midpoints;
mod sets;
mod settlements;

use crate::damage::{damage, damage_with_sets};
use crate::generator::Generator;
use crate::random::Random;
use dayformat::kind::SIMPLE;
use reference::terms::SHORT_DAY;

type Profile = fn(&mut Generator);

const PROFILES: [Profile; 32] = [
    markets::busy_days,
    markets::few_valid_minutes,
    markets::half_pennies,
    markets::spread_edges,
    markets::last_trades,
    markets::market_changes,
    settlements::last_minute,
    settlements::index_days,
    settlements::many_days,
    settlements::round_trips,
    settlements::carried_halts,
    midpoints::quiet_last_minutes,
    midpoints::half_cents,
    midpoints::times_of_a_minute,
    accounts::both_tags,
    accounts::refused_accounts,
    limits::positions_and_volumes,
    limits::fields,
    days::out_of_order,
    days::short_files,
    lengths::starts_of_dates,
    lengths::last_minutes,
    expiry::runs_of_dates,
    expiry::last_minutes,
    expiry::starts_of_dates,
    expiry::months,
    expiry::hourly_values,
    expiry::without_cash,
    expiry::ended_contracts,
    files::random_bytes,
    files::random_bodies,
    files::bench_limit,
];

/// Of `set_bench`.
const WITH_SETS: [Profile; 11] = [
    sets::among_calls,
    sets::bad_trades,
    sets::long_lists,
    sets::halts,
    sets::starts_of_dates,
    sets::last_trades,
    sets::limits,
    sets::limits,
    sets::final_dates,
    sets::random_bodies,
    sets::bench_limit,
];

/// The input of a seed: size byte and file.
pub fn input(seed: u64) -> Vec<u8> {
    input_of(seed, &PROFILES, damage)
}

/// The input of a seed for `set_bench`, with sets.
pub fn set_input(seed: u64) -> Vec<u8> {
    input_of(seed, &WITH_SETS, damage_with_sets)
}

fn input_of(seed: u64, profiles: &[Profile], damage: fn(&mut Random, &[u8]) -> Vec<u8>) -> Vec<u8> {
    let mut generator = Generator::new(seed);
    if generator.random.chance(2) {
        return refused_or_empty(generator);
    }
    generator.random.pick(profiles)(&mut generator);
    let damages = match generator.random.chance(25) {
        true => generator.random.between(1, 3),
        false => 0,
    };
    for _ in 0..damages {
        generator.file.bytes = damage(&mut generator.random, &generator.file.bytes);
    }
    generator.input()
}

fn refused_or_empty(mut generator: Generator) -> Vec<u8> {
    let empty = generator.random.chance(20);
    files::refused_sizes(&mut generator);
    if empty {
        Vec::new()
    } else {
        generator.input()
    }
}

/// An input of more than 2,600 days, which only the C run can take. If the seed is even, the last day that
/// the book holds is a final date.
pub fn long_input(seed: u64) -> Vec<u8> {
    let mut generator = Generator::new(seed);
    for day in 1..=2_602 {
        let length = match day == 2_600 && seed.is_multiple_of(2) {
            true => generator.final_date(),
            false => generator.start_ordinary_date(),
        };
        if generator.random.chance(50) {
            generator.any_trade();
        }
        if generator.random.chance(50) {
            generator.tight_quote();
        }
        generator.quiet_minutes(length);
        let set_price = generator.near_price();
        generator.fix(set_price);
        generator.close();
    }
    generator.file.length_of_day(SHORT_DAY);
    generator.file.final_date(2_035, 10);
    generator.file.timed_quote(0, 0, 0);
    generator
        .file
        .two_byte_trade((1_023, 0), SIMPLE, 1, 200_000);
    generator.input()
}

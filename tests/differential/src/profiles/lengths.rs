//! Lengths of day: where their record may come, and what goes by them.

use crate::generator::Generator;
use dayformat::kind::BLOCK;
use dayformat::tag;
use reference::terms::{END_OF_MINUTE, FULL_DAY, SHORT_DAY};

/// The record before and after the call that begins a date, a second one, and one after records that
/// begin nothing.
pub fn starts_of_dates(generator: &mut Generator) {
    let mut halted = false;
    for _ in 0..generator.random.between(3, 7) {
        for _ in 0..generator.random.below(3) {
            begin_nothing(generator, halted);
        }
        let left = match generator.random.chance(60) {
            true => given_length_or_final_date(generator),
            false => usize::from(FULL_DAY) - first_call(generator, halted),
        };
        for _ in 0..generator.random.below(4) {
            generator.any_length_of_day();
        }
        halted = rest_of_date(generator, left);
    }
}

fn given_length_or_final_date(generator: &mut Generator) -> usize {
    match generator.random.chance(10) {
        true => generator.final_date(),
        false => given_length(generator),
    }
}

fn given_length(generator: &mut Generator) -> usize {
    let minutes = generator.random.pick(&[SHORT_DAY, SHORT_DAY, FULL_DAY]);
    generator.length_of_day(minutes)
}

/// A record that is refused or unknown.
pub fn begin_nothing(generator: &mut Generator, halted: bool) {
    match generator.random.below(14) {
        0 | 1 => generator.refused_length_of_day(),
        2 => generator.crossed_quote(),
        3 => {
            let accounts = generator.two_accounts();
            generator.trade(accounts, 0, 0, 0);
        }
        4 => {
            generator.file.minute_ends(1, 1);
        }
        5 if halted => {
            generator.file.halt();
        }
        5 => {
            generator.file.resume();
        }
        6 => {
            generator.file.fix(0).close();
        }
        7 => {
            generator.file.record(200, &[]);
        }
        8 => {
            generator.file.timed_quote(END_OF_MINUTE, 0, 0);
        }
        9 => generator.trade_of_refused_account(),
        10 | 11 => generator.refused_final_date(),
        12 => {
            generator.file.final_fix(200_000);
        }
        _ => wrong_length_record(generator),
    }
}

/// No known tag has a body of 1 or 5 bytes.
fn wrong_length_record(generator: &mut Generator) {
    let known = generator.random.pick(&tag::KNOWN);
    let tag = generator
        .random
        .pick(&[tag::LENGTH_OF_DAY, tag::FINAL_DATE, known]);
    let [high, low] = SHORT_DAY.to_be_bytes();
    let length = generator.random.pick(&[1, 5]);
    generator.file.record(tag, &[high, low, 0, 0, 0][..length]);
}

/// A call that begins the date. It gives the minutes that it ends.
pub fn first_call(generator: &mut Generator, halted: bool) -> usize {
    match generator.random.below(7) {
        0 => {
            generator.quiet_minutes(1);
            return 1;
        }
        _ if halted => {
            generator.file.resume();
        }
        1 => generator.tight_quote(),
        2 => generator.one_sided_quote(),
        3 => generator.any_trade(),
        4 => {
            let accounts = generator.two_accounts();
            generator.trade(accounts, BLOCK, 250, 200_000);
        }
        5 => {
            generator.file.timed_quote(0, 0, 0);
        }
        _ => {
            generator.file.halt();
        }
    }
    0
}

/// The minutes that are left, the fix and the close. It gives whether a halt carries over.
fn rest_of_date(generator: &mut Generator, left: usize) -> bool {
    generator.file.resume();
    generator.quiet_minutes(left - 1);
    if generator.random.chance(60) {
        generator.any_trade();
    }
    generator.quiet_minutes(1);
    if generator.random.chance(30) {
        generator.any_length_of_day();
    }
    let halts = generator.random.chance(40);
    if halts {
        generator.file.halt();
    }
    generator.fix_and_close();
    halts
}

/// Trades, fixes and minute ends around the last minutes of both lengths, on days of either.
pub fn last_minutes(generator: &mut Generator) {
    let (short, full) = (usize::from(SHORT_DAY), usize::from(FULL_DAY));
    for _ in 0..generator.random.between(1, 6) {
        let length = given_length(generator);
        generator.quiet_minutes(short - AROUND / 2);
        around_last_minute(generator);
        if length == full {
            generator.quiet_minutes(full - short - AROUND);
            around_last_minute(generator);
        }
        generator.fix_and_close();
    }
}

/// The minute ends around a last one, half of them up to it.
const AROUND: usize = 4;

fn around_last_minute(generator: &mut Generator) {
    for _ in 0..AROUND {
        if generator.random.chance(40) {
            generator.any_trade();
        }
        if generator.random.chance(20) {
            let set_price = generator.near_price();
            let set_price = generator.random.pick(&[0, set_price]);
            generator.file.fix(set_price);
        }
        generator.quiet_minutes(1);
    }
}

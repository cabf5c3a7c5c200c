//! Final dates, and what comes after a contract's end.

use crate::generator::Generator;
use crate::profiles::lengths::{begin_nothing, first_call};
use crate::profiles::limits::edge_price;
use dayformat::kind::SIMPLE;
use dayformat::tag;
use reference::terms::{FINAL_DAY, FULL_DAY, SHORT_DAY};

/// A final date first, between or last among dates with trades, and calls after its close.
pub fn runs_of_dates(generator: &mut Generator) {
    let dates = generator.random.between(1, 4);
    let last = generator.random.between(1, dates);
    for date in 1..=dates {
        let length = match date == last {
            true => generator.final_date(),
            false => generator.start_ordinary_date(),
        };
        if generator.random.chance(70) {
            generator.file.resume();
        }
        trades_and_quotes(generator, 6);
        generator.quiet_minutes(length - 1);
        trades_and_quotes(generator, 3);
        generator.quiet_minutes(1);
        match date == last {
            true => end_of_final_date(generator),
            false => end_of_ordinary_date(generator),
        }
    }
    after_the_end(generator, 4);
}

fn trades_and_quotes(generator: &mut Generator, most: u32) {
    for _ in 0..generator.random.below(most + 1) {
        match generator.random.below(4) {
            0 => generator.any_quote(),
            1 => generator.tight_quote(),
            _ => generator.any_trade(),
        }
    }
}

/// Now and then a halt carries over.
fn end_of_ordinary_date(generator: &mut Generator) {
    if generator.random.chance(25) {
        generator.file.halt();
    }
    generator.fix_and_close();
}

/// Trades, fixes and minute ends between its fix and its close.
fn end_of_final_date(generator: &mut Generator) {
    let set_price = generator.near_price();
    generator.fix(set_price);
    for _ in 0..generator.random.below(5) {
        match generator.random.below(8) {
            0 => generator.any_quote(),
            1 => generator.any_fix(set_price),
            2 => generator.quiet_minutes(1),
            3 => {
                generator.file.halt();
            }
            4 => {
                generator.file.resume();
            }
            _ => generator.any_trade(),
        }
    }
    generator.close();
}

/// Fixes of both kinds and minute ends around the last minute of a final date, and of an ordinary one
/// before it.
pub fn last_minutes(generator: &mut Generator) {
    if generator.random.chance(40) {
        let length = generator.start_ordinary_date();
        around_last_minute(generator, length);
        end_of_ordinary_date(generator);
    }
    let length = generator.final_date();
    around_last_minute(generator, length);
    if generator.random.chance(20) {
        let more = generator.random.pick(&[SHORT_DAY, FULL_DAY]) - FINAL_DAY;
        generator.quiet_minutes(more.into());
    }
    end_of_final_date(generator);
}

/// The minutes of a date and up to one more.
fn around_last_minute(generator: &mut Generator, length: usize) {
    generator.quiet_minutes(length - 2);
    for _ in 0..generator.random.between(2, 3) {
        if generator.random.chance(30) {
            generator.any_trade();
        }
        if generator.random.chance(50) {
            let price = price_or_none(generator);
            generator.any_fix(price);
        }
        generator.quiet_minutes(1);
    }
}

fn price_or_none(generator: &mut Generator) -> u32 {
    let (near, edge) = (generator.near_price(), edge_price(generator));
    generator.random.pick(&[near, near, edge, 0])
}

/// A final date before and after the call that begins it, after a length of day, after another one, and
/// after records that begin nothing.
pub fn starts_of_dates(generator: &mut Generator) {
    let halted = generator.random.chance(30);
    if halted {
        generator.file.halt();
        generator.quiet_minutes(FULL_DAY.into());
        generator.fix(200_000);
        generator.close();
    }
    for _ in 0..generator.random.below(4) {
        begin_nothing(generator, halted);
    }
    let left = match generator.random.below(10) {
        0 => generator.length_of_day(SHORT_DAY),
        1 => generator.length_of_day(FULL_DAY),
        2..=5 => {
            let ended = first_call(generator, halted);
            generator.late_final_date();
            usize::from(FULL_DAY) - ended
        }
        _ => generator.final_date(),
    };
    for _ in 0..generator.random.below(5) {
        match generator.random.chance(40) {
            true => generator.late_final_date(),
            false => generator.any_length_of_day(),
        }
    }
    if generator.random.chance(30) {
        first_call(generator, halted);
        generator.any_length_of_day();
    }
    if generator.random.chance(40) {
        generator.quiet_minutes(left);
        generator.fix_and_close();
        generator.any_length_of_day();
    }
}

/// Months at the edges of the table, in it and outside, on a date that hardly starts, now and then after the
/// call that begins it.
pub fn months(generator: &mut Generator) {
    for _ in 0..generator.random.below(9) {
        match generator.random.below(8) {
            0 => {
                generator.file.length_of_day(FINAL_DAY);
            }
            1 => wrong_length(generator),
            _ => generator.refused_final_date(),
        }
    }
    if generator.random.chance(40) {
        first_call(generator, false);
    }
    generator.final_date();
    for _ in 0..generator.random.below(3) {
        generator.any_length_of_day();
    }
}

/// A body of a final date or its fix that is too short or too long.
fn wrong_length(generator: &mut Generator) {
    let (tag, length) = generator.random.pick(&[
        (tag::FINAL_DATE, 0),
        (tag::FINAL_DATE, 2),
        (tag::FINAL_DATE, 4),
        (tag::FINAL_FIX, 0),
        (tag::FINAL_FIX, 3),
        (tag::FINAL_FIX, 5),
    ]);
    generator
        .file
        .record(tag, &[7, 243, 10, 7, 243][..length as usize]);
}

/// Hourly values at the ends of the prices and past them, and between two dimes.
pub fn hourly_values(generator: &mut Generator) {
    generator.final_date();
    if generator.random.chance(50) {
        generator.any_trade();
        generator.tight_quote();
    }
    generator.quiet_minutes(FINAL_DAY.into());
    for _ in 0..generator.random.below(5) {
        match generator.random.chance(20) {
            true => wrong_length(generator),
            false => {
                let edge = edge_price(generator);
                let value = generator.random.pick(&[0, edge, edge]);
                generator.file.final_fix(value);
            }
        }
    }
    let value = generator.hourly_value();
    generator.file.final_fix(value);
    generator.close();
}

/// Trades at the settlement price of a final date without a market, which leave no cash.
pub fn without_cash(generator: &mut Generator) {
    let price = generator.near_ticked_price();
    let others = generator.two_accounts();
    generator.final_date();
    for _ in 0..generator.random.between(1, 3) {
        let accounts = generator.two_accounts();
        generator.trade(accounts, SIMPLE, 9, price);
    }
    generator.quiet_minutes(FINAL_DAY.into());
    if generator.random.chance(50) {
        generator.trade(others, SIMPLE, 2, price + 10);
    }
    generator.file.final_fix(price);
    generator.close();
}

/// A final date with positions, perhaps after another date, then calls of every kind.
pub fn ended_contracts(generator: &mut Generator) {
    if generator.random.chance(30) {
        generator.any_trade();
        generator.quiet_minutes(FULL_DAY.into());
        end_of_ordinary_date(generator);
    }
    generator.final_date();
    generator.any_trade();
    generator.quiet_minutes(FINAL_DAY.into());
    end_of_final_date(generator);
    after_the_end(generator, 30);
    if generator.random.chance(20) {
        generator.file.minute_ends(FULL_DAY.into(), 200_000);
        generator.file.fix(200_000).close();
    }
}

/// Calls of every kind, with values in their fields and outside.
fn after_the_end(generator: &mut Generator, most: u32) {
    for _ in 0..generator.random.below(most + 1) {
        call_after_the_end(generator);
    }
}

fn call_after_the_end(generator: &mut Generator) {
    let price = generator.random.pick(&[0, 1, 200_000]);
    match generator.random.below(14) {
        0 => generator.any_quote(),
        1 | 2 => generator.any_trade(),
        3 => {
            let accounts = generator.accounts_of_any_trade();
            let (kind, quantity, price) = generator.outside_field();
            generator.trade(accounts, kind, quantity, price);
        }
        4 => generator.trade_of_refused_account(),
        5 => generator.timed_quote(price, 0),
        6 => {
            generator.file.minute_ends(1, price);
        }
        7 => {
            generator.file.halt();
        }
        8 => {
            generator.file.resume();
        }
        9 => generator.any_fix(price),
        10 => {
            generator.file.close();
        }
        11 => wrong_length(generator),
        _ => generator.any_length_of_day(),
    }
}

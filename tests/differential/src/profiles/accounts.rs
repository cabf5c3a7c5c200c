//! Accounts of both tags, and refused accounts beside the other refusals of a trade.

use crate::generator::{Generator, LARGEST};
use crate::profiles::limits::trades;
use dayformat::kind::SIMPLE;
use dayformat::{tag, Writer, HEADER};
use reference::call::Account;

/// Trades of many accounts among quotes, before and in the last minute.
pub fn both_tags(generator: &mut Generator) {
    for _ in 0..generator.random.between(1, 5) {
        let length = generator.start_date();
        generator.file.resume();
        trades_among_quotes(generator);
        generator.quiet_minutes(length - 1);
        trades_among_quotes(generator);
        generator.quiet_minutes(1);
        generator.fix_and_close();
    }
}

fn trades_among_quotes(generator: &mut Generator) {
    for _ in 0..generator.random.below(16) {
        match generator.random.below(12) {
            0 => trade_between_times(generator),
            1 => trade_before_length(generator),
            2 => with_length_of_other_tag(generator),
            3 => generator.trade_of_refused_account(),
            4 | 5 => {
                let accounts = (generator.any_account(), generator.any_account());
                generator.trade_of_any_kind(accounts);
            }
            6 | 7 => {
                let accounts = of_one_low_byte(generator);
                generator.trade_of_any_kind(accounts);
            }
            _ => generator.any_trade(),
        }
    }
}

/// A trade, and a quote that runs back by a millisecond behind the one before the trade.
fn trade_between_times(generator: &mut Generator) {
    let bid = generator.near_ticked_price();
    let time = generator.later_time(20_000);
    generator.file.timed_quote(time, bid, bid + 10);
    generator.any_trade();
    generator
        .file
        .timed_quote(time.saturating_sub(1), bid, bid + 20);
}

/// A length of day that comes too late, by the trade if by nothing before it.
fn trade_before_length(generator: &mut Generator) {
    let accounts = generator.two_accounts();
    generator.trade_of_any_kind(accounts);
    generator.any_length_of_day();
}

fn of_one_low_byte(generator: &mut Generator) -> (Account, Account) {
    let low = generator.random.pick(&[0, 3, 255]);
    let mut account = || low + 256 * generator.random.below(4) as Account;
    (account(), account())
}

/// A record of one tag of trades with the length and the fields of the other.
fn with_length_of_other_tag(generator: &mut Generator) {
    let price = generator.near_ticked_price();
    let mut other = Writer::new();
    let tag = match generator.random.chance(50) {
        true => {
            other.trade((3, 7), SIMPLE, 1, price);
            tag::TWO_BYTE_TRADE
        }
        false => {
            other.two_byte_trade((3, 7), SIMPLE, 1, price);
            tag::TRADE
        }
    };
    generator.file.record(tag, &other.bytes[HEADER..]);
}

/// Refusal 12 by itself and beside 4, 5, 7 and 8.
pub fn refused_accounts(generator: &mut Generator) {
    for _ in 0..generator.random.between(1, 3) {
        let length = generator.start_date();
        generator.file.resume();
        refused_trades(generator);
        if generator.random.chance(60) {
            at_limits(generator);
        }
        generator.quiet_minutes(length - 1);
        refused_trades(generator);
        generator.quiet_minutes(1);
        generator.fix_and_close();
    }
}

fn refused_trades(generator: &mut Generator) {
    for _ in 0..generator.random.below(6) {
        match generator.random.below(6) {
            0 => {
                generator.file.halt();
                generator.trade_of_refused_account();
                outside_field(generator);
                generator.file.resume();
            }
            1 | 2 => outside_field(generator),
            3 => generator.any_trade(),
            _ => generator.trade_of_refused_account(),
        }
    }
}

/// A trade of a refused account with another value outside its field.
fn outside_field(generator: &mut Generator) {
    let accounts = generator.refused_accounts();
    let (kind, quantity, price) = generator.outside_field();
    generator.trade(accounts, kind, quantity, price);
}

/// Accounts at their limits that trade with each other and with a refused one.
fn at_limits(generator: &mut Generator) {
    let (long, short) = generator.two_accounts();
    let full = generator.any_account();
    trades(generator, (long, short), 12, LARGEST);
    trades(generator, (full, full), 10, LARGEST);
    for _ in 0..generator.random.between(1, 4) {
        let refused = generator.refused_account();
        let accounts = generator.random.pick(&[
            (full, refused),
            (refused, full),
            (long, refused),
            (refused, short),
            (long, full),
            (full, short),
        ]);
        trades(generator, accounts, 1, 1);
    }
}

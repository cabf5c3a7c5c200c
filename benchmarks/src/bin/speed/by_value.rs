//! A trade by value against a copy of the book, and a trade of a set against a trade by value and one of
//! a set in the Rust ledger.

use crate::library::{processor_time, processor_time_of_children};
use crate::rounds::{process, PROCESSES, ROUNDS, RUST};
use benchmarks::{sets, ACCOUNTS};
use std::hint::black_box;
use std::process::Command;
use std::time::{Duration, Instant};

/// The bytes of a book: its figures, and for each account four columns of eight bytes and one of four.
const BOOK: usize = 136 + ACCOUNTS * (4 * 8 + 4);
/// The copies of one round.
const COPIES: u32 = 100_000;

/// The argument with which trade-bench plays its trades in sets. After a side it is that of a process
/// that times them.
pub const SETS: &str = "sets";

fn best_round(mut round: impl FnMut()) -> Duration {
    let mut best = Duration::MAX;
    let start = Instant::now();
    while start.elapsed() < ROUNDS {
        let before = processor_time();
        round();
        best = best.min(processor_time() - before);
    }
    best
}

/// A copy of a book, in nanoseconds.
fn copy() -> f64 {
    let (from, mut to) = ([1_u8; BOOK], [0_u8; BOOK]);
    let best = best_round(|| {
        for _ in 0..COPIES {
            black_box(&mut to).copy_from_slice(black_box(&from));
        }
    });
    best.as_nanos() as f64 / f64::from(COPIES)
}

/// What a trade takes, in nanoseconds, where all take so long.
fn a_trade(all: Duration) -> f64 {
    all.as_nanos() as f64 / sets::TRADES as f64
}

/// Prints the best round of sets in the Rust ledger.
pub fn time_sets() {
    let best = best_round(|| assert_eq!(sets::run(), sets::TRADES));
    println!("{}", a_trade(best));
}

/// A trade of one run of trade-bench. What the program takes to start is counted.
fn trade(program: &str, arguments: &[&str]) -> f64 {
    let before = processor_time_of_children();
    let output = Command::new(program).args(arguments).output();
    let all = processor_time_of_children() - before;
    let output = output.expect("trade-bench runs").stdout;
    assert_eq!(output, format!("{}\n", sets::TRADES).as_bytes());
    a_trade(all)
}

/// The best times of a trade by value, of one in a set, and of one in a set in Rust. The three take turns.
fn best_trades(trade_bench: &str) -> [f64; 3] {
    let mut best = [f64::MAX; 3];
    for _ in 0..PROCESSES {
        let [rust] = process(RUST, &[SETS.to_string()]);
        let times = [trade(trade_bench, &[]), trade(trade_bench, &[SETS]), rust];
        for (best, time) in best.iter_mut().zip(times) {
            *best = best.min(time);
        }
    }
    best
}

pub fn tables(trade_bench: &str) {
    let ([trade, in_set, rust], copy) = (best_trades(trade_bench), copy());
    println!("| a trade by value, ns | a copy of the book, ns | trade / copy |");
    println!("|---|---|---|");
    println!("| {trade:.0} | {copy:.0} | {:.1} |", trade / copy);
    println!();
    println!(
        "| a trade by value, ns | in a set of 500, ns | by value / in a set \
         | in a set in Rust, ns | library / Rust |"
    );
    println!("|---|---|---|---|---|");
    let (times, ratio) = (trade / in_set, in_set / rust);
    println!("| {trade:.0} | {in_set:.1} | {times:.0} | {rust:.1} | {ratio:.1} |");
}

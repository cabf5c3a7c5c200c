//! Rounds of runs of one side on files, each side in processes of its own.

use crate::library::{self, processor_time};
use benchmarks::inputs::Input;
use benchmarks::ACCOUNTS;
use std::hint::black_box;
use std::process::Command;
use std::time::{Duration, Instant};

/// A round takes about this long, or one run of a long file: short, so that some go undisturbed.
const ROUND: Duration = Duration::from_millis(2);
/// How long the rounds of one process take together.
pub const ROUNDS: Duration = Duration::from_millis(700);
/// The processes of each side for a row. Where a process lies in memory moves its times by some
/// hundredths, so that the best of several counts.
pub const PROCESSES: usize = 6;

pub type Run = fn(u8, &[u8], &mut [i64], &mut [i64]) -> u64;

/// The first argument of a process that times one side.
pub const LIBRARY: &str = "library";
pub const RUST: &str = "rust";

pub fn side(name: &str) -> Run {
    match name {
        LIBRARY => library::run,
        RUST => benchmarks::run,
        _ => panic!("expected a side and not {name}"),
    }
}

/// The lists that runs fill, made once for many.
#[derive(PartialEq)]
struct Lists {
    positions: [i64; ACCOUNTS],
    cash: [i64; ACCOUNTS],
}

impl Lists {
    fn new() -> Self {
        Lists {
            positions: [i64::MIN; ACCOUNTS],
            cash: [i64::MIN; ACCOUNTS],
        }
    }

    fn fill(&mut self, run: Run, input: &Input) -> u64 {
        let (size, file) = (black_box(input.size), black_box(&input.file));
        run(size, file, &mut self.positions, &mut self.cash)
    }
}

/// Both sides give the same, and accept every record.
pub fn verify(input: &Input) {
    let (mut proved, mut plain) = (Lists::new(), Lists::new());
    for (lists, side) in [(&mut proved, LIBRARY), (&mut plain, RUST)] {
        let accepted = lists.fill(self::side(side), input);
        assert_eq!(accepted, input.records, "{}: {side}", input.name);
    }
    assert!(proved == plain, "{}: lists", input.name);
}

fn time(run: Run, input: &Input, repeats: u32) -> Duration {
    let mut lists = Lists::new();
    let start = processor_time();
    for _ in 0..repeats {
        black_box(lists.fill(run, input));
    }
    processor_time() - start
}

/// The best round of a side on each file, in nanoseconds a run. The files take turns.
pub fn best_rounds<const FILES: usize>(run: Run, inputs: [&Input; FILES]) -> [f64; FILES] {
    let repeats = inputs.map(|input| {
        // The first run takes longer.
        time(run, input, 1);
        let once = time(run, input, 1).max(Duration::from_micros(1));
        (ROUND.as_nanos() / once.as_nanos()).max(1) as u32
    });
    let mut best = [f64::MAX; FILES];
    let start = Instant::now();
    while start.elapsed() < ROUNDS * FILES as u32 {
        for place in 0..FILES {
            let round = time(run, inputs[place], repeats[place]).as_nanos() as f64;
            best[place] = best[place].min(round / f64::from(repeats[place]));
        }
    }
    best
}

/// What a process of one side printed: the best rounds of it, in nanoseconds.
pub fn process<const FILES: usize>(side: &str, row: &[String]) -> [f64; FILES] {
    let program = std::env::current_exe().expect("this program has a path");
    let output = Command::new(program).arg(side).args(row).output();
    let output = output.expect("this program runs");
    let text = String::from_utf8(output.stdout).expect("it prints numbers");
    let times = text
        .split_whitespace()
        .map(|time| time.parse().expect("a number"));
    let times: Vec<f64> = times.collect();
    times.try_into().expect("a number for each file")
}

/// The best rounds of all processes of the library and of the Rust ledger, in nanoseconds a run. The
/// two take turns.
pub fn best_processes<const FILES: usize>(row: &[String]) -> [[f64; FILES]; 2] {
    let mut best = [[f64::MAX; FILES]; 2];
    for _ in 0..PROCESSES {
        for (best, side) in best.iter_mut().zip([LIBRARY, RUST]) {
            let times = process::<FILES>(side, row);
            for (best, time) in best.iter_mut().zip(times) {
                *best = best.min(time);
            }
        }
    }
    best
}

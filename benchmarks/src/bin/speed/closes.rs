//! What a close takes: a day with its close less the same day without it.

use crate::rounds::{best_processes, best_rounds, verify, Run};
use benchmarks::{inputs, ACCOUNTS};

/// The argument before the number of active accounts, of a process that times one side.
pub const CLOSE: &str = "close";

/// Prints the best rounds of a side on both days.
pub fn time(run: Run, active: u32) {
    let (fixed, closed) = (inputs::fixed_day(active), inputs::closed_day(active));
    let [fixed, closed] = best_rounds(run, [&fixed, &closed]);
    println!("{fixed} {closed}");
}

/// A close in the library and in the Rust ledger, in nanoseconds.
#[derive(Clone, Copy)]
pub struct Close {
    pub active: u32,
    pub times: [f64; 2],
}

impl Close {
    fn measured(active: u32) -> Self {
        verify(&inputs::fixed_day(active));
        verify(&inputs::closed_day(active));
        let best = best_processes(&[CLOSE.to_string(), active.to_string()]);
        Close {
            active,
            times: best.map(|[fixed, closed]| closed - fixed),
        }
    }

    fn print(self) {
        let [proved, plain] = self.times;
        let account = |time: f64| time / ACCOUNTS as f64;
        println!(
            "| {} | {:.2} | {:.2} | {:.2} | {:.2} | {:.2} |",
            self.active,
            proved / 1_000.0,
            plain / 1_000.0,
            account(proved),
            account(plain),
            proved / plain
        );
    }
}

/// Prints the table. A close posts every account, whether it was active or not.
pub fn table() -> [Close; 3] {
    println!(
        "| active accounts | library, µs a close | Rust, µs a close \
         | library, ns an account | Rust, ns an account | library / Rust |"
    );
    println!("|---|---|---|---|---|---|");
    [16, 256, 1_024].map(|active| {
        let close = Close::measured(active);
        close.print();
        close
    })
}

//! Plays a day file and prints the accounts with a position or cash: positions FILE

use std::process::ExitCode;

/// The run of `include/funding.h`, without pointers.
mod funding {
    pub const ACCOUNTS: usize = 1_024;

    pub struct Report {
        /// The number of accepted records.
        pub accepted: u64,
        pub positions: [i64; ACCOUNTS],
        /// In hundredths of a cent.
        pub cash: [i64; ACCOUNTS],
    }

    extern "C" {
        fn funding_run(
            size: u8,
            file: *const u8,
            file_len: usize,
            positions: *mut i64,
            positions_len: usize,
            cash: *mut i64,
            cash_len: usize,
        ) -> u64;
    }

    /// Plays records on a fresh book, none if the size is refused.
    pub fn run(size: u8, file: &[u8]) -> Option<Report> {
        if size != 1 && size != 10 {
            return None;
        }
        let mut positions = [0; ACCOUNTS];
        let mut cash = [0; ACCOUNTS];
        // SAFETY: each pointer is that of a slice with the length beside it, and the slices differ.
        let accepted = unsafe {
            funding_run(
                size,
                file.as_ptr(),
                file.len(),
                positions.as_mut_ptr(),
                positions.len(),
                cash.as_mut_ptr(),
                cash.len(),
            )
        };
        Some(Report {
            accepted,
            positions,
            cash,
        })
    }
}

fn print(report: &funding::Report) {
    println!("accepted {}", report.accepted);
    for (account, (position, cash)) in report.positions.iter().zip(&report.cash).enumerate() {
        if *position != 0 || *cash != 0 {
            println!("account {account} position {position} cash {cash}");
        }
    }
}

/// The first byte of a day file is the size.
fn play(path: &str) -> Result<funding::Report, String> {
    let day = std::fs::read(path).map_err(|_| format!("{path} can't be read"))?;
    day.split_first()
        .and_then(|(size, records)| funding::run(*size, records))
        .ok_or_else(|| "the size is neither 1 nor 10".to_string())
}

fn main() -> ExitCode {
    let arguments: Vec<String> = std::env::args().skip(1).collect();
    let [path] = arguments.as_slice() else {
        eprintln!("usage: positions FILE");
        return ExitCode::from(2);
    };
    match play(path) {
        Ok(report) => {
            print(&report);
            ExitCode::SUCCESS
        }
        Err(problem) => {
            eprintln!("positions: {problem}");
            ExitCode::FAILURE
        }
    }
}

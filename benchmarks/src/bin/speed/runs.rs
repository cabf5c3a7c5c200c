//! The run over whole files, a record of it with all that it takes and without the closes.

use crate::closes::Close;
use crate::rounds::{best_processes, best_rounds, verify, Run};
use benchmarks::inputs::{self, Input};

/// Prints the best round of a side on a file.
pub fn time(run: Run, place: usize) {
    let input = inputs::all().swap_remove(place);
    let [best] = best_rounds(run, [&input]);
    println!("{best}");
}

/// A run of a file in the library and in the Rust ledger, in nanoseconds.
pub struct Timed {
    input: Input,
    times: [f64; 2],
}

impl Timed {
    fn measured(place: usize, input: Input) -> Self {
        verify(&input);
        let times = best_processes(&[place.to_string()]).map(|[time]| time);
        Timed { input, times }
    }

    fn print(&self) {
        let Input { name, records, .. } = self.input;
        let [proved, plain] = self.times.map(|time| time / records as f64);
        let ratio = proved / plain;
        println!("| {name} | {records} | {proved:.2} | {plain:.2} | {ratio:.2} |");
    }

    fn print_without_closes(&self, close: Close) {
        let Input { name, closes, .. } = self.input;
        let records = self.input.records - closes;
        let mut without = [0.0; 2];
        for (side, without) in without.iter_mut().enumerate() {
            *without = (self.times[side] - closes as f64 * close.times[side]) / records as f64;
        }
        let [proved, plain] = without;
        println!("| {name} | {records} | {proved:.2} | {plain:.2} |");
    }
}

pub fn table() -> Vec<Timed> {
    println!("| file | records | library, ns a record | Rust, ns a record | library / Rust |");
    println!("|---|---|---|---|---|");
    let mut rows = Vec::new();
    for (place, input) in inputs::all().into_iter().enumerate() {
        let timed = Timed::measured(place, input);
        timed.print();
        rows.push(timed);
    }
    rows
}

/// Each time is that of the whole file less its closes, so that it has what a record costs with few
/// active accounts and with many.
pub fn table_without_closes(rows: &[Timed], closes: &[Close]) {
    println!("| without the closes | records | library, ns a record | Rust, ns a record |");
    println!("|---|---|---|---|");
    for (name, active) in inputs::TWO_BYTE_TRADES {
        let timed = rows.iter().find(|timed| timed.input.name == name);
        let close = closes.iter().find(|close| close.active == active);
        let (timed, close) = (timed.expect("a row"), close.expect("a measured close"));
        timed.print_without_closes(*close);
    }
}

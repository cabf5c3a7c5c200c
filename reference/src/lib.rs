//! A reference funding ledger, written from documents 01 and 02 alone.
//!
//! It keeps the lists of accepted calls and works every figure out from them with exact
//! fractions, so that it shares no structure with a ledger that steps a book.

pub mod accounts;
pub mod call;
pub mod file;
pub mod fraction;
pub mod history;
pub mod midpoints;
pub mod minutes;
pub mod play;
pub mod printout;
pub mod program;
pub mod refusal;
pub mod rules;
pub mod sets;
pub mod settlement;
pub mod terms;

use play::{play, Played};
use printout::{bench_text, library_text};
use rules::Rules;
use terms::ACCOUNTS;

/// Positions and cash of all accounts.
pub type Lists = ([i64; ACCOUNTS], [i64; ACCOUNTS]);

/// What `funding-bench` prints for this standard input.
pub fn bench(input: &[u8]) -> String {
    bench_under(Rules::RIGHT, input)
}

/// What `set_bench` prints for this standard input, in which records of `set::TAG` are sets of trades.
pub fn set_bench(input: &[u8]) -> String {
    bench_under(Rules::WITH_SETS, input)
}

pub fn bench_under(rules: Rules, input: &[u8]) -> String {
    let counted = input.len().min(rules.files.bench_limit());
    bench_text(run(rules, &input[..counted]).as_ref())
}

/// Plays size byte and records, none when the size is refused.
pub fn run(rules: Rules, input: &[u8]) -> Option<Played> {
    let (size, file) = size_and_records(input);
    play(size, file, rules)
}

/// The size byte, 0 when missing, and the records after it.
pub fn size_and_records(input: &[u8]) -> (u8, &[u8]) {
    input
        .split_first()
        .map_or((0, &[]), |(size, records)| (*size, records))
}

/// The run offered to C: accepted records, and the lists unless they stay untouched.
pub fn c_run(size: u8, file: &[u8]) -> (u64, Option<Lists>) {
    c_run_of(play(size, file, Rules::RIGHT).as_ref())
}

/// What C gets of a run, none when the size is refused.
pub fn c_run_of(played: Option<&Played>) -> (u64, Option<Lists>) {
    played.map_or((0, None), |played| played.c_run([ACCOUNTS; 2]))
}

/// What a program that links the C library prints: size byte and file on standard input.
pub fn library_printout(input: &[u8]) -> String {
    library_printout_under(Rules::RIGHT, input)
}

pub fn library_printout_under(rules: Rules, input: &[u8]) -> String {
    library_text(run(rules, input).as_ref())
}

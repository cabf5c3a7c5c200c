//! What the programs do with standard input and output.

use crate::rules::Rules;
use crate::{bench_under, library_printout_under};
use std::io::{Read, Write};

/// Prints what `funding-bench` prints for standard input, or a program that links the C library.
pub fn play_standard_input(rules: Rules, library: bool) {
    let mut input = Vec::new();
    std::io::stdin()
        .read_to_end(&mut input)
        .expect("standard input is readable");
    let text = match library {
        true => library_printout_under(rules, &input),
        false => bench_under(rules, &input),
    };
    std::io::stdout()
        .write_all(text.as_bytes())
        .expect("standard output is writable");
}

//! `reference-bench [--library | --sets]`: the reference in the place of `funding-bench`, of a program
//! that links the C library, or of `set_bench`.

use reference::program::play_standard_input;
use reference::rules::Rules;

fn main() {
    let arguments: Vec<String> = std::env::args().skip(1).collect();
    match arguments.iter().map(String::as_str).collect::<Vec<_>>()[..] {
        [] => play_standard_input(Rules::RIGHT, false),
        ["--library"] => play_standard_input(Rules::RIGHT, true),
        ["--sets"] => play_standard_input(Rules::WITH_SETS, false),
        _ => {
            eprintln!("usage: reference-bench [--library | --sets]");
            std::process::exit(2);
        }
    }
}

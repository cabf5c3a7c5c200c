//! `wrong-bench [--wrong NAME | --sets] [--library]`: a wrong ledger, or the reference without a name, in
//! the place of `funding-bench` or of a program that links the C library. The wrong ledgers of sets stand
//! in the place of `set_bench`, and so does the reference with `--sets`.

use differential::wrong::{all, named};
use reference::program::play_standard_input;
use reference::rules::Rules;

fn main() {
    let mut rules = Rules::RIGHT;
    let mut library = false;
    let mut arguments = std::env::args().skip(1);
    while let Some(argument) = arguments.next() {
        match argument.as_str() {
            "--library" => library = true,
            "--sets" => rules = Rules::WITH_SETS,
            "--wrong" => rules = rules_named(arguments.next()),
            _ => usage(),
        }
    }
    play_standard_input(rules, library);
}

fn rules_named(name: Option<String>) -> Rules {
    let wrong = name.and_then(|name| named(&name));
    wrong.unwrap_or_else(|| usage()).rules
}

fn usage() -> ! {
    eprintln!("usage: wrong-bench [--wrong NAME | --sets] [--library]");
    eprintln!("wrong ledgers:");
    for wrong in all() {
        eprintln!("  {}", wrong.name);
    }
    std::process::exit(2);
}

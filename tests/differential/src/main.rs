//! `differential --program PATH [--library-runner PATH] [--sets PATH] --count N --seed S`: see the README.

use differential::compare::Check;
use differential::profiles::{input, set_input};
use differential::runner::{Failure, Runner};
use std::path::PathBuf;

#[derive(Default)]
struct Arguments {
    checks: Vec<Check>,
    /// Whether inputs are those with sets.
    sets: bool,
    count: u64,
    long: u64,
    seed: u64,
    inputs: Vec<String>,
}

fn main() {
    let arguments = arguments();
    let runner = Runner {
        checks: arguments.checks.clone(),
        input: match arguments.sets {
            true => set_input,
            false => input,
        },
        folder: PathBuf::from("target-rust/differential"),
    };
    runner.prepare();
    let (files, failure) = play_all(&runner, &arguments);
    if let Some(failure) = &failure {
        println!("{}", runner.report(failure));
    }
    runner.clean();
    let differences = u64::from(failure.is_some());
    println!("differential: {files} files, {differences} differences");
    std::process::exit(i32::from(failure.is_some()));
}

/// The number of files played, and the first failure if any.
fn play_all(runner: &Runner, arguments: &Arguments) -> (u64, Option<Failure>) {
    let mut files = 0;
    for path in &arguments.inputs {
        let input = std::fs::read(path).unwrap_or_else(|error| usage(&format!("{path}: {error}")));
        files += 1;
        if let Some(failure) = runner.play("given", &input, 0) {
            return (files, Some(failure));
        }
    }
    let (played, failure) = runner.play_seeds(arguments.seed, arguments.count);
    files += played;
    if failure.is_some() {
        return (files, failure);
    }
    for number in 0..arguments.long {
        files += 1;
        let failure = runner.play_long(arguments.seed.wrapping_add(number));
        if failure.is_some() {
            return (files, failure);
        }
    }
    (files, None)
}

fn arguments() -> Arguments {
    let mut arguments = Arguments::default();
    let mut given = std::env::args().skip(1);
    while let Some(name) = given.next() {
        let value = given
            .next()
            .unwrap_or_else(|| usage(&format!("{name} needs a value")));
        let number = || {
            value
                .parse()
                .unwrap_or_else(|_| usage(&format!("{name} needs a number")))
        };
        match name.as_str() {
            "--program" => arguments.checks.push(Check::bench(&value)),
            "--library-runner" => arguments.checks.push(Check::library(&value)),
            "--sets" => {
                arguments.checks.push(Check::sets(&value));
                arguments.sets = true;
            }
            "--count" => arguments.count = number(),
            "--long" => arguments.long = number(),
            "--seed" => arguments.seed = number(),
            "--input" => arguments.inputs.push(value),
            _ => usage(&format!("unknown argument {name}")),
        }
    }
    if arguments.checks.is_empty() {
        usage("no program given");
    }
    arguments
}

fn usage(problem: &str) -> ! {
    eprintln!("{problem}");
    eprintln!(
        "usage: differential --program PATH [--library-runner PATH] [--sets PATH] \
         [--count N] [--seed S] [--long N] [--input FILE]"
    );
    std::process::exit(2);
}

//! The runner with the reference and wrong ledgers in the place of the program under test.

use dayformat::{set, HEADER};
use differential::records::split;
use reference::size_and_records;
use std::path::{Path, PathBuf};
use std::process::{Command, Output};

/// Plays the right ledger unless it is given the name of a wrong one.
const BENCH: &str = env!("CARGO_BIN_EXE_wrong-bench");

fn folder(name: &str) -> PathBuf {
    let folder = Path::new(env!("CARGO_TARGET_TMPDIR")).join(name);
    // Left over from an earlier run.
    let _ = std::fs::remove_dir_all(&folder);
    std::fs::create_dir_all(&folder).expect("the folder can be made");
    folder
}

/// Plays 60 seeds through the programs that these arguments give.
fn run(folder: &Path, programs: [&str; 4]) -> Output {
    Command::new(env!("CARGO_BIN_EXE_differential"))
        .args(programs)
        .args(["--count", "60", "--seed", "0"])
        .current_dir(folder)
        .output()
        .expect("the runner starts")
}

fn assert_no_difference(output: &Output) {
    let text = String::from_utf8_lossy(&output.stdout);
    assert_eq!(text, "differential: 60 files, 0 differences\n");
    assert!(output.status.success());
}

#[test]
fn a_right_program_shows_no_difference() {
    let library = format!("{BENCH} --library");
    let programs = ["--program", BENCH, "--library-runner", &library];
    assert_no_difference(&run(&folder("right"), programs));
}

/// One that reads no sets gets the same inputs.
#[test]
fn a_right_program_of_sets_shows_no_difference() {
    let sets = format!("{BENCH} --sets");
    let programs = ["--sets", &sets, "--program", BENCH];
    assert_no_difference(&run(&folder("right-sets"), programs));
}

#[test]
fn a_wrong_bench_is_caught_saved_and_shrunk() {
    let folder = folder("wrong-bench");
    let wrong = format!("{BENCH} --wrong unknown-not-in-places");
    let library = format!("{BENCH} --library");
    let programs = ["--program", &wrong, "--library-runner", &library];
    assert_shrunk(&folder, &run(&folder, programs));
}

#[test]
fn a_wrong_library_is_caught_saved_and_shrunk() {
    let folder = folder("wrong-library");
    let wrong = format!("{BENCH} --library --wrong unknown-accepted");
    let programs = ["--program", BENCH, "--library-runner", &wrong];
    assert_shrunk(&folder, &run(&folder, programs));
}

#[test]
fn a_wrong_bench_of_sets_is_caught_saved_and_shrunk() {
    let folder = folder("wrong-sets");
    let wrong = format!("{BENCH} --wrong set-number-of-last-bad-trade");
    let programs = ["--sets", &wrong, "--program", BENCH];
    let output = run(&folder, programs);
    assert_shrunk(&folder, &output);
    let text = String::from_utf8_lossy(&output.stdout);
    let two_trades = 1 + HEADER + 2 * set::TRADE;
    assert!(text.contains(&format!("({two_trades} bytes)")), "{text}");
}

/// Few enough records remain for a reader.
fn assert_shrunk(folder: &Path, output: &Output) {
    assert_eq!(output.status.code(), Some(1));
    let text = String::from_utf8_lossy(&output.stdout);
    assert!(text.ends_with("1 differences\n"), "{text}");
    let saved: Vec<PathBuf> = std::fs::read_dir(folder.join("target-rust/differential"))
        .expect("the folder is there")
        .map(|entry| entry.expect("an entry is readable").path())
        .collect();
    assert_eq!(saved.len(), 2, "{saved:?}");
    let records = |path: &PathBuf| {
        let input = std::fs::read(path).expect("the file is there");
        let (_, file) = size_and_records(&input);
        split(file).len()
    };
    let fewest = saved.iter().map(records).min();
    assert!(fewest < Some(4), "{text}");
}

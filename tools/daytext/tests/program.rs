//! The program `daytext`: arguments, files, standard error, exit status.

use std::io::Write;
use std::path::PathBuf;
use std::process::{Command, Output, Stdio};

fn run(arguments: &[&str], input: &[u8]) -> Output {
    let mut child = Command::new(env!("CARGO_BIN_EXE_daytext"))
        .args(arguments)
        .stdin(Stdio::piped())
        .stdout(Stdio::piped())
        .stderr(Stdio::piped())
        .spawn()
        .unwrap();
    let mut stdin = child.stdin.take().unwrap();
    // The program may end without reading its input.
    let _ = stdin.write_all(input);
    drop(stdin);
    child.wait_with_output().unwrap()
}

#[track_caller]
fn check_output(output: &Output, expected: &[u8]) {
    assert_eq!(String::from_utf8_lossy(&output.stderr), "");
    assert_eq!(output.stdout, expected);
    assert_eq!(output.status.code(), Some(0));
}

#[track_caller]
fn check_error(output: &Output, expected: &str) {
    assert_eq!(String::from_utf8_lossy(&output.stderr), expected);
    assert_eq!(output.stdout, b"");
    assert_eq!(output.status.code(), Some(1));
}

#[test]
fn standard_input() {
    check_output(&run(&["encode"], b"size 10\nhalt\n"), &[10, 4, 0, 0]);
    check_output(&run(&["decode"], &[10]), b"size 10\n");
}

#[test]
fn a_file() {
    let directory = PathBuf::from(env!("CARGO_TARGET_TMPDIR"));
    let path = directory.join("program-test.day.txt");
    std::fs::write(&path, "size 1\n").unwrap();
    check_output(&run(&["encode", path.to_str().unwrap()], b""), &[1]);
    let output = run(&["encode", directory.join("absent").to_str().unwrap()], b"");
    assert_eq!(output.status.code(), Some(1));
    assert!(String::from_utf8_lossy(&output.stderr).contains("absent: "));
}

#[test]
fn every_error_and_no_output() {
    check_error(
        &run(&["encode"], b"size 10\nhalt now\n\nfix at\n"),
        "daytext: line 2: \"now\" is too much; expected the end of the line, or times and a number\n\
         daytext: line 4: the set price is \"at\"; expected a number from 0 to 4294967295, or - for none\n",
    );
}

#[test]
fn comments_in_another_encoding() {
    check_output(&run(&["encode"], b"size 10 # \xe9\n"), &[10]);
}

#[test]
fn a_note_past_the_bytes_that_the_bench_reads() {
    let minutes = |count| format!("size 10\nminute 200000 times {count}\nbytes 00\n");
    let within = run(&["encode"], minutes(9362).as_bytes());
    assert_eq!((within.stdout.len(), within.stderr.len()), (65_536, 0));
    let past = run(&["encode"], minutes(9363).as_bytes());
    assert_eq!(past.status.code(), Some(0));
    assert_eq!(
        String::from_utf8_lossy(&past.stderr),
        "daytext: note: 65543 bytes, of which funding-bench reads the first 65536\n"
    );
}

#[test]
fn arguments() {
    for arguments in [
        &[] as &[&str],
        &["play"],
        &["encode", "a", "b"],
        &["help", "a"],
    ] {
        check_error(
            &run(arguments, b""),
            "daytext: expected encode [FILE], decode [FILE] or help\n",
        );
    }
    let help = run(&["help"], b"");
    assert!(help.stdout.starts_with(b"daytext "));
    assert_eq!(help.status.code(), Some(0));
}

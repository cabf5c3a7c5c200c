//! The days in `examples/` encode, fit into the bench program and have printouts.

use std::fs;
use std::path::{Path, PathBuf};

fn examples() -> Vec<PathBuf> {
    let directory = Path::new(env!("CARGO_MANIFEST_DIR")).join("../../examples");
    let mut paths: Vec<PathBuf> = fs::read_dir(directory)
        .unwrap()
        .map(|entry| entry.unwrap().path())
        .filter(|path| path.to_str().unwrap().ends_with(".day.txt"))
        .collect();
    paths.sort();
    assert!(!paths.is_empty());
    paths
}

#[test]
fn encode_and_fit_into_the_bench_program() {
    for path in examples() {
        let text = fs::read_to_string(&path).unwrap();
        let bytes = daytext::encode(&text).unwrap_or_else(|errors| panic!("{path:?}: {errors:?}"));
        assert!(bytes.len() <= dayformat::BENCH_LIMIT, "{path:?}");
        assert_eq!(daytext::encode(&daytext::decode(&bytes)), Ok(bytes));
    }
}

#[test]
fn begin_with_a_comment() {
    for path in examples() {
        let text = fs::read_to_string(&path).unwrap();
        let comment = text.lines().take_while(|line| line.starts_with('#'));
        assert!((2..=3).contains(&comment.count()), "{path:?}");
    }
}

#[test]
fn have_printouts() {
    for path in examples() {
        let expected = path.to_str().unwrap().replace(".day.txt", ".expected");
        let printout = fs::read_to_string(&expected).expect(&expected);
        assert_eq!(printout.lines().last(), Some("end"), "{expected}");
        assert!(printout.ends_with('\n'), "{expected}");
    }
}

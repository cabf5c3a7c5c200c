//! Compares what a program prints with what the reference prints.

use reference::{bench, library_printout, set_bench};
use std::fs::File;
use std::path::Path;
use std::process::{Command, Stdio};

/// A program under test and the reference's printout that it must match.
#[derive(Clone)]
pub struct Check {
    /// The program's path and arguments.
    pub command: Vec<String>,
    pub expected: fn(&[u8]) -> String,
}

pub struct Difference {
    pub expected: String,
    pub found: String,
}

impl Check {
    /// A bench program, as path and arguments parted by blanks.
    pub fn bench(command: &str) -> Self {
        Check::new(command, bench)
    }

    /// A program that links the C library and prints accepted count and lists.
    pub fn library(command: &str) -> Self {
        Check::new(command, library_printout)
    }

    /// A program that prints what `set_bench` prints.
    pub fn sets(command: &str) -> Self {
        Check::new(command, set_bench)
    }

    fn new(command: &str, expected: fn(&[u8]) -> String) -> Self {
        Check {
            command: command.split_whitespace().map(String::from).collect(),
            expected,
        }
    }

    /// Plays the input through the program; `scratch` holds its standard input.
    pub fn difference(&self, input: &[u8], scratch: &Path) -> Option<Difference> {
        let expected = (self.expected)(input);
        let found = self.printout(input, scratch);
        (found != expected).then_some(Difference { expected, found })
    }

    /// Standard input comes from a file, so that neither side waits for a full pipe.
    fn printout(&self, input: &[u8], scratch: &Path) -> String {
        std::fs::write(scratch, input).expect("the scratch file is writable");
        let output = Command::new(&self.command[0])
            .args(&self.command[1..])
            .stdin(File::open(scratch).expect("the scratch file is readable"))
            .stderr(Stdio::inherit())
            .output()
            .unwrap_or_else(|error| panic!("{} doesn't start: {error}", self.command[0]));
        let mut text = String::from_utf8_lossy(&output.stdout).into_owned();
        if output.status.code().is_none() {
            text.push_str("(ended by a signal)\n");
        }
        text
    }
}

impl Difference {
    /// The first line that differs: its number, the expected one and the found one.
    pub fn first_line(&self) -> String {
        let mut expected = self.expected.split('\n');
        let mut found = self.found.split('\n');
        for number in 1.. {
            let (left, right) = (expected.next(), found.next());
            if left != right || left.is_none() {
                let shown =
                    |line: Option<&str>| line.map_or("(none)".into(), |text| format!("{text:?}"));
                let (left, right) = (shown(left), shown(right));
                return format!("line {number}: reference {left}, program {right}");
            }
        }
        unreachable!("the lines end")
    }
}

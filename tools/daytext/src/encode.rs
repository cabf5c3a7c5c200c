//! Text to bytes.

use crate::line::{parse, without_comment, Line};
use std::fmt;

#[derive(Clone, Debug, PartialEq, Eq)]
pub struct LineError {
    /// Counted from 1.
    pub line: usize,
    pub message: String,
}

impl fmt::Display for LineError {
    fn fmt(&self, formatter: &mut fmt::Formatter) -> fmt::Result {
        write!(formatter, "line {}: {}", self.line, self.message)
    }
}

/// The day file that a text describes, or every error in the text.
pub fn encode(text: &str) -> Result<Vec<u8>, Vec<LineError>> {
    // Some editors begin a file with a byte order mark.
    let text = text.strip_prefix('\u{feff}').unwrap_or(text);
    let mut encoder = Encoder::new();
    for (before, line) in text.lines().enumerate() {
        let line = without_comment(line);
        if !line.is_empty() {
            encoder.add(before + 1, line);
        }
    }
    encoder.finish(text.lines().count())
}

/// Which lines may come next.
#[derive(Clone, Copy)]
enum Next {
    Size,
    Records,
    Nothing(&'static str),
    /// After an error of order, which is reported once.
    Any,
}

struct Encoder {
    next: Next,
    bytes: Vec<u8>,
    errors: Vec<LineError>,
}

impl Encoder {
    fn new() -> Encoder {
        Encoder {
            next: Next::Size,
            bytes: Vec::new(),
            errors: Vec::new(),
        }
    }

    fn add(&mut self, number: usize, line: &str) {
        self.check_order(number, line);
        match parse(line) {
            Ok(Line::Size(Some(size))) => self.bytes.push(size),
            Ok(Line::Size(None)) => self.next = Next::Nothing("size missing"),
            Ok(Line::Record(record, times)) => {
                let record = record.to_bytes();
                for _ in 0..times {
                    self.bytes.extend(&record);
                }
            }
            Ok(Line::Bytes(bytes)) => {
                self.bytes.extend(bytes);
                self.next = Next::Nothing("bytes");
            }
            Err(message) => self.error(number, message),
        }
    }

    fn check_order(&mut self, number: usize, line: &str) {
        let is_size = line.split_whitespace().next() == Some("size");
        let wrong = match self.next {
            Next::Size if is_size => None,
            Next::Size => Some("no size before this line; expected size first".to_string()),
            Next::Records if is_size => Some("a second size; expected only one".to_string()),
            Next::Nothing(last) => Some(format!("a line after {last}; expected none")),
            Next::Records | Next::Any => None,
        };
        self.next = match wrong {
            Some(message) => {
                self.error(number, message);
                Next::Any
            }
            None if is_size => Next::Records,
            None => self.next,
        };
    }

    fn error(&mut self, line: usize, message: String) {
        self.errors.push(LineError { line, message });
    }

    fn finish(mut self, lines: usize) -> Result<Vec<u8>, Vec<LineError>> {
        if let Next::Size = self.next {
            let message =
                "the text ends without a size; expected size and a number, or size missing";
            self.error(lines.max(1), message.to_string());
        }
        if self.errors.is_empty() {
            Ok(self.bytes)
        } else {
            Err(self.errors)
        }
    }
}

//! The program `daytext`.

use dayformat::BENCH_LIMIT;
use std::ffi::OsString;
use std::fs;
use std::io::{self, Read, Write};
use std::path::Path;
use std::process::ExitCode;

const HELP: &str = "\
daytext turns a day of the funding ledger from text into a day file, and back.

  daytext encode [FILE]    text to bytes
  daytext decode [FILE]    bytes to text
  daytext help             this page

It reads FILE, or standard input, and writes to standard output.
Errors go to standard error with their line; the exit status is then 1.

The text has one call a line; # begins a comment.

  size 10                          first; 1 or 10, or missing for an empty file
  length 1140                      or 1320 minutes, before a date's first call
  final 2035 10                    year and month of a contract that ends on
                                   this date; in the place of length
  quote 200100 200300              bid, offer; - for none
  quote 200100 200300 after 30000  with its time, milliseconds into the minute
  trade 3 7 simple 12 at 200200    buyer, seller, kind, quantity, price;
                                   kinds: simple, spread, block, or a number
  trade 3 7 simple 12 at 200200 as tag 10
                                   accounts in two bytes, as they also are
                                   where one is above 255
  minute 200,000 times 1319        index, - for none; times repeats a line
  halt
  resume
  fix                              fix 200150 sets the price
  hourly 200,005                   the fix of a final date, by this index value
  close
  record 200 00 ff                 any tag and body, in hexadecimal
  bytes 02 00                      last; a record that is cut off

  daytext encode day.txt | funding-bench
";

fn main() -> ExitCode {
    let arguments: Vec<OsString> = std::env::args_os().skip(1).collect();
    match run(&arguments) {
        Ok(()) => ExitCode::SUCCESS,
        Err(messages) => {
            for message in messages {
                eprintln!("daytext: {message}");
            }
            ExitCode::FAILURE
        }
    }
}

fn run(arguments: &[OsString]) -> Result<(), Vec<String>> {
    let (command, file) = match arguments {
        [command] => (command.to_str(), None),
        [command, file] => (command.to_str(), Some(Path::new(file))),
        _ => (None, None),
    };
    match (command, file) {
        (Some("encode"), file) => encode(file),
        (Some("decode"), file) => decode(file),
        (Some("help" | "--help" | "-h"), None) => write(HELP.as_bytes()),
        _ => Err(vec![
            "expected encode [FILE], decode [FILE] or help".to_string()
        ]),
    }
}

fn encode(file: Option<&Path>) -> Result<(), Vec<String>> {
    let text = read(file)?;
    // A comment may be in any encoding; other words have to be ASCII anyway.
    let bytes = daytext::encode(&String::from_utf8_lossy(&text))
        .map_err(|errors| errors.iter().map(ToString::to_string).collect::<Vec<_>>())?;
    if bytes.len() > BENCH_LIMIT {
        eprintln!(
            "daytext: note: {} bytes, of which funding-bench reads the first {}",
            bytes.len(),
            BENCH_LIMIT
        );
    }
    write(&bytes)
}

fn decode(file: Option<&Path>) -> Result<(), Vec<String>> {
    write(daytext::decode(&read(file)?).as_bytes())
}

fn read(file: Option<&Path>) -> Result<Vec<u8>, Vec<String>> {
    let Some(path) = file else {
        let mut bytes = Vec::new();
        return match io::stdin().read_to_end(&mut bytes) {
            Ok(_) => Ok(bytes),
            Err(error) => Err(vec![format!("standard input: {error}")]),
        };
    };
    fs::read(path).map_err(|error| vec![format!("{}: {error}", path.display())])
}

fn write(bytes: &[u8]) -> Result<(), Vec<String>> {
    let mut output = io::stdout().lock();
    output
        .write_all(bytes)
        .and_then(|()| output.flush())
        .map_err(|error| vec![format!("standard output: {error}")])
}

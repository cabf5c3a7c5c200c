//! One line of the text.

use crate::record::{Accounts, Record, KINDS};
use crate::value;
use dayformat::LONGEST_BODY;
use std::iter::Peekable;
use std::ops::RangeInclusive;
use std::str::SplitWhitespace;

/// Enough for every day; a slip must not fill the disk.
pub const MOST_TIMES: u32 = 1_000_000;

#[derive(Debug, PartialEq, Eq)]
pub enum Line {
    /// None stands for an empty file.
    Size(Option<u8>),
    Record(Record, u32),
    /// What is left of a record that the end of the file cuts off.
    Bytes(Vec<u8>),
}

/// The line without its comment.
pub fn without_comment(line: &str) -> &str {
    line.split('#').next().unwrap_or_default().trim()
}

/// Reads a line that isn't empty; an error says what was expected.
pub fn parse(line: &str) -> Result<Line, String> {
    let mut words = Words(line.split_whitespace().peekable());
    let first = words.0.next().unwrap_or_default();
    let parsed = match first {
        "size" => Line::Size(words.size()?),
        "bytes" => Line::Bytes(words.some_bytes()?),
        _ => {
            let record = words.record(first)?;
            Line::Record(record, words.times()?)
        }
    };
    words.end()?;
    Ok(parsed)
}

struct Words<'a>(Peekable<SplitWhitespace<'a>>);

impl Words<'_> {
    fn size(&mut self) -> Result<Option<u8>, String> {
        if self.0.next_if_eq(&"missing").is_some() {
            return Ok(None);
        }
        self.byte("size", ", or missing").map(Some)
    }

    fn record(&mut self, first: &str) -> Result<Record, String> {
        match first {
            "length" => self.length_of_day(),
            "final" => self.final_date(),
            "trade" => self.trade(),
            "quote" => self.quote(),
            "minute" => Ok(Record::MinuteEnd {
                index: self.number_or_none("index")?,
            }),
            "halt" => Ok(Record::Halt),
            "resume" => Ok(Record::Resume),
            "fix" => self.fix(),
            "hourly" => self.final_fix(),
            "close" => Ok(Record::Close),
            "record" => self.other(),
            _ => Err(format!(
                "\"{first}\" begins no line; expected size, length, final, quote, trade, \
                 minute, halt, resume, fix, hourly, close, record or bytes"
            )),
        }
    }

    fn length_of_day(&mut self) -> Result<Record, String> {
        let minutes = self.two_bytes("length of day")?;
        Ok(Record::LengthOfDay { minutes })
    }

    fn final_date(&mut self) -> Result<Record, String> {
        let year = self.two_bytes("year")?;
        let month = self.byte("month", "")?;
        Ok(Record::FinalDate { year, month })
    }

    fn quote(&mut self) -> Result<Record, String> {
        let bid = self.number_or_none("bid")?;
        let offer = self.number_or_none("offer")?;
        if !self.begins("after", "after and milliseconds")? {
            return Ok(Record::Quote { bid, offer });
        }
        let time = self.two_bytes("time in milliseconds")?;
        Ok(Record::TimedQuote { time, bid, offer })
    }

    fn trade(&mut self) -> Result<Record, String> {
        let buyer = self.two_bytes("buyer")?;
        let seller = self.two_bytes("seller")?;
        let kind = self.kind()?;
        let quantity = self.number("quantity", 0..=u32::MAX, "")?;
        self.word("at", "price")?;
        let price = self.number("price", 0..=u32::MAX, "")?;
        let accounts = if self.as_tag_10()? {
            Accounts::TwoBytes(buyer, seller)
        } else {
            Accounts::shortest(buyer, seller)
        };
        Ok(Record::Trade {
            accounts,
            kind,
            quantity,
            price,
        })
    }

    fn as_tag_10(&mut self) -> Result<bool, String> {
        if !self.begins("as", "as tag 10")? {
            return Ok(false);
        }
        match (self.0.next(), self.0.next()) {
            (Some("tag"), Some("10")) => Ok(true),
            (Some("tag"), Some(tag)) => {
                Err(format!("the tag is \"{tag}\"; expected 10, or no tag"))
            }
            (None | Some("tag"), _) => {
                Err("the tag after as is missing; expected tag 10".to_string())
            }
            (Some(word), _) => Err(format!("\"{word}\" after as; expected tag 10")),
        }
    }

    fn kind(&mut self) -> Result<u8, String> {
        for (kind, word) in KINDS {
            if self.0.next_if_eq(&word).is_some() {
                return Ok(kind);
            }
        }
        self.byte("kind", ", or simple, spread or block")
    }

    fn fix(&mut self) -> Result<Record, String> {
        let price = match self.0.peek() {
            None | Some(&"times") => 0,
            Some(_) => self.number_or_none("set price")?,
        };
        Ok(Record::Fix { price })
    }

    fn final_fix(&mut self) -> Result<Record, String> {
        let hourly = self.number("hourly index value", 0..=u32::MAX, "")?;
        Ok(Record::FinalFix { hourly })
    }

    fn other(&mut self) -> Result<Record, String> {
        let tag = self.byte("tag", "")?;
        let body = self.bytes()?;
        if body.len() > LONGEST_BODY {
            return Err(format!(
                "the body has {} bytes; expected at most {LONGEST_BODY}",
                body.len()
            ));
        }
        Ok(Record::new(tag, &body))
    }

    fn some_bytes(&mut self) -> Result<Vec<u8>, String> {
        let bytes = self.bytes()?;
        if bytes.is_empty() {
            return Err("the bytes are missing; expected hexadecimal bytes".to_string());
        }
        Ok(bytes)
    }

    fn bytes(&mut self) -> Result<Vec<u8>, String> {
        let mut bytes = Vec::new();
        while let Some(word) = self.0.next_if(|&word| word != "times") {
            bytes.extend(value::bytes(word).ok_or(format!(
                "\"{word}\" is no bytes; expected two hexadecimal digits for each"
            ))?);
        }
        Ok(bytes)
    }

    /// Whether a part that may be left out begins here, with `word`.
    fn begins(&mut self, word: &str, part: &str) -> Result<bool, String> {
        match self.0.peek() {
            Some(&next) if next == word => {
                self.0.next();
                Ok(true)
            }
            None | Some(&"times") => Ok(false),
            Some(next) => Err(too_much(
                next,
                &format!("the end of the line, {part}, or times and a number"),
            )),
        }
    }

    fn times(&mut self) -> Result<u32, String> {
        match self.0.next() {
            None => Ok(1),
            Some("times") => self.number("count after times", 1..=MOST_TIMES, ""),
            Some(word) => Err(too_much(word, "the end of the line, or times and a number")),
        }
    }

    fn byte(&mut self, name: &str, others: &str) -> Result<u8, String> {
        let number = self.number(name, 0..=u32::from(u8::MAX), others)?;
        Ok(u8::try_from(number).expect("the number is at most 255"))
    }

    fn two_bytes(&mut self, name: &str) -> Result<u16, String> {
        let number = self.number(name, 0..=u32::from(u16::MAX), "")?;
        Ok(u16::try_from(number).expect("the number is at most 65,535"))
    }

    /// A number, where `-` stands for none and counts as 0.
    fn number_or_none(&mut self, name: &str) -> Result<u32, String> {
        if self.0.next_if_eq(&"-").is_some() {
            return Ok(0);
        }
        self.number(name, 0..=u32::MAX, ", or - for none")
    }

    /// A number in its range; `others` names the words that could stand in its place.
    fn number(
        &mut self,
        name: &str,
        range: RangeInclusive<u32>,
        others: &str,
    ) -> Result<u32, String> {
        let (least, most) = (range.start(), range.end());
        let expected = format!("expected a number from {least} to {most}{others}");
        let Some(word) = self.0.next() else {
            return Err(format!("the {name} is missing; {expected}"));
        };
        value::number(word)
            .filter(|number| range.contains(number))
            .ok_or(format!("the {name} is \"{word}\"; {expected}"))
    }

    fn word(&mut self, expected: &str, before: &str) -> Result<(), String> {
        match self.0.next() {
            Some(word) if word == expected => Ok(()),
            Some(word) => Err(format!(
                "\"{word}\" before the {before}; expected the word {expected}"
            )),
            None => Err(format!(
                "the {before} is missing; expected the word {expected} and the {before}"
            )),
        }
    }

    fn end(&mut self) -> Result<(), String> {
        match self.0.next() {
            None => Ok(()),
            Some(word) => Err(too_much(word, "the end of the line")),
        }
    }
}

fn too_much(word: &str, expected: &str) -> String {
    format!("\"{word}\" is too much; expected {expected}")
}

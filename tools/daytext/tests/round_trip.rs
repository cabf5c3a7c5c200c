//! Every byte string has a text that gives it back.

use dayformat::{body_length, tag, Writer};
use std::ops::Range;

/// Xorshift with a fixed seed, so that a failure can be repeated.
struct Random(u64);

impl Random {
    fn next(&mut self) -> u64 {
        self.0 ^= self.0 << 13;
        self.0 ^= self.0 >> 7;
        self.0 ^= self.0 << 17;
        self.0
    }

    fn below(&mut self, bound: usize) -> usize {
        (self.next() >> 16) as usize % bound
    }

    fn bytes(&mut self, lengths: Range<usize>) -> Vec<u8> {
        let length = lengths.start + self.below(lengths.len());
        (0..length).map(|_| self.next() as u8).collect()
    }

    /// A record whose length often fits its tag, with few different bodies.
    fn record(&mut self) -> Vec<u8> {
        // 0 and the first number past the known tags are unknown.
        let tag = self.below(tag::KNOWN.len() + 2) as u8;
        let length = match self.below(4) {
            0 => self.below(16),
            _ => body_length(tag).unwrap_or(0),
        };
        let (value, zeros) = (self.below(3) as u8, self.below(2));
        let mut record = vec![tag, 0, length as u8];
        record.extend((0..length).map(|place| if place % 2 == zeros { 0 } else { value }));
        record
    }

    /// Records, some repeated, and now and then a cut at any place.
    fn file(&mut self) -> Vec<u8> {
        let mut file = self.bytes(1..2);
        for _ in 0..self.below(12) {
            let times = 1 + self.below(3);
            file.extend(self.record().repeat(times));
        }
        if self.below(2) == 0 {
            file.truncate(self.below(file.len() + 1));
        }
        file
    }
}

#[track_caller]
fn check(bytes: &[u8]) {
    let text = daytext::decode(bytes);
    assert_eq!(daytext::encode(&text).as_deref(), Ok(bytes), "{text}");
}

#[test]
fn every_string_of_up_to_two_bytes() {
    check(&[]);
    for first in 0..=255 {
        check(&[first]);
        for second in 0..=255 {
            check(&[first, second]);
        }
    }
}

#[test]
fn every_tag_with_every_length_of_up_to_15_bytes() {
    for tag in 0..=255 {
        for length in 0..16 {
            for body in [vec![0; length], (0..length as u8).collect()] {
                let mut file = Writer::new();
                file.bytes.push(10);
                check(&file.record(tag, &body).bytes);
            }
        }
    }
}

#[test]
fn trades_of_every_pair_of_accounts_by_each_tag() {
    let accounts = [0, 1, 254, 255, 256, 257, 1_023, 1_024, 65_534, 65_535];
    for buyer in accounts {
        for seller in accounts {
            let mut file = Writer::new();
            file.bytes.push(1);
            file.two_byte_trade((buyer, seller), 2, 250, 5_001);
            if let (Ok(buyer), Ok(seller)) = (u8::try_from(buyer), u8::try_from(seller)) {
                file.trade((buyer, seller), 2, 250, 5_001);
            }
            check(&file.bytes);
        }
    }
}

#[test]
fn random_bytes() {
    let mut random = Random(0x0ddc_0ffe_e0dd_f00d);
    for _ in 0..20_000 {
        check(&random.bytes(0..48));
    }
}

#[test]
fn random_records() {
    let mut random = Random(0x5eed_0f5e_ed5e_ed01);
    for _ in 0..20_000 {
        check(&random.file());
    }
}

#[test]
fn longest_record_whole_and_cut_off() {
    let mut bytes = vec![10, 200, 255, 255];
    bytes.extend([0xa5; 65_535]);
    check(&bytes);
    check(&bytes[..bytes.len() - 1]);
}

#[test]
fn more_equal_minutes_than_one_line_repeats() {
    let mut bytes = vec![1];
    bytes.extend([3, 0, 4, 0, 3, 13, 64].repeat(1_000_001));
    check(&bytes);
}

//! Quotes around the price level, with a time and without.

use super::{Generator, Times};
use dayformat::{header, tag, HEADER};
use reference::terms::{END_OF_MINUTE, LATEST_TIME};

/// No times of a quote.
const REFUSED_TIMES: [u16; 3] = [END_OF_MINUTE, END_OF_MINUTE + 1, u16::MAX];

impl Generator {
    /// A quote of tag 2, now and then of tag 9.
    pub fn quote(&mut self, bid: u32, offer: u32) {
        match self.random.chance(30) {
            true => self.timed_quote(bid, offer),
            false => {
                self.file.quote(bid, offer);
            }
        }
    }

    pub fn timed_quote(&mut self, bid: u32, offer: u32) {
        let time = self.any_time();
        self.file.timed_quote(time, bid, offer);
    }

    /// Mostly a time that doesn't run back.
    pub fn any_time(&mut self) -> u16 {
        let latest = self.latest_time();
        match self.random.below(20) {
            0 => self.random.pick(&REFUSED_TIMES),
            1 => latest.saturating_sub(1),
            2 => self.random.below(u32::from(latest) + 1) as u16,
            3 => LATEST_TIME,
            4..=7 => latest,
            8..=10 => latest + 1,
            _ => self.later_time(20_000),
        }
    }

    /// A time at most so many milliseconds after the latest one.
    pub fn later_time(&mut self, most: u16) -> u16 {
        let later = self.latest_time() + self.random.below(u32::from(most) + 1) as u16;
        later.min(LATEST_TIME)
    }

    /// The latest time of the minute under way, by the records written so far.
    pub fn latest_time(&mut self) -> u16 {
        let Times { latest, read } = &mut self.times;
        while let Some((tag, length, bytes)) = self.file.bytes.get(*read..).and_then(header) {
            match (tag, bytes) {
                (tag::MINUTE_END | tag::CLOSE, _) => *latest = 0,
                (tag::TIMED_QUOTE, [high, low, ..]) => {
                    let time = u16::from_be_bytes([*high, *low]);
                    if time <= LATEST_TIME {
                        *latest = time.max(*latest);
                    }
                }
                _ => {}
            }
            *read += HEADER + length;
        }
        *latest
    }

    /// A two-sided quote well within the spread limit.
    pub fn tight_quote(&mut self) {
        let bid = self.near_ticked_price().min(49_999_000);
        let width = self.random.between(1, (bid / 2_500).clamp(1, 20));
        self.quote(bid, bid + 10 * width);
    }

    pub fn one_sided_quote(&mut self) {
        let price = self.near_ticked_price();
        match self.random.below(3) {
            0 => self.quote(price, 0),
            1 => self.quote(0, price),
            _ => self.quote(0, 0),
        }
    }

    /// A two-sided quote beyond the spread limit.
    pub fn wide_quote(&mut self) {
        let bid = self.near_ticked_price();
        let offer = (bid / 10 + bid / 1_000 + 10) * 10;
        self.quote(bid - bid / 100 / 10 * 10, offer);
    }

    /// A two-sided quote whose bid isn't below its offer.
    pub fn crossed_quote(&mut self) {
        let offer = self.near_ticked_price().min(49_999_000);
        let above = self.random.pick(&[0, 10, 100]);
        self.quote(offer + above, offer);
    }

    pub fn any_quote(&mut self) {
        match self.random.below(12) {
            0..=3 => self.one_sided_quote(),
            4 | 5 => self.wide_quote(),
            6 => self.crossed_quote(),
            _ => self.tight_quote(),
        }
    }
}

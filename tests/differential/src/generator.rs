//! What the profiles write their files with: markets, trades and days around a price level.

mod accounts;
mod dates;
mod quotes;
mod sets;

pub use accounts::LARGEST;
pub use sets::in_set;

use crate::random::Random;
use dates::Contract;
use dayformat::Writer;

/// The most minutes that the events of one minute may end themselves.
const LONGEST_EVENTS: usize = 4;

/// The most minute ends in a row after the end of a contract.
const REFUSED_MINUTE_ENDS: usize = 3;

pub struct Generator {
    pub random: Random,
    pub file: Writer,
    pub size: u8,
    /// The ticked price that quotes, trades and indexes lie around.
    pub level: u32,
    times: Times,
    contract: Contract,
}

/// The latest time of the minute under way.
#[derive(Default)]
struct Times {
    latest: u16,
    /// The bytes of the file that it was read from.
    read: usize,
}

impl Generator {
    pub fn new(seed: u64) -> Self {
        let mut random = Random::new(seed);
        let size = random.pick(&[1, 10]);
        let level = match random.below(6) {
            0 => random.between(600, 2_000) * 10,
            1 => random.between(10, 40) * 5_120,
            2 => random.between(4_900_000, 4_990_000) * 10,
            3 => 200_000,
            4 => random.between(800_000, 1_200_000) * 10,
            _ => random.between(10_000, 40_000) * 10,
        };
        Generator {
            random,
            file: Writer::new(),
            size,
            level,
            times: Times::default(),
            contract: Contract::Open,
        }
    }

    /// The whole input: size byte and records.
    pub fn input(self) -> Vec<u8> {
        let mut input = vec![self.size];
        input.extend(self.file.bytes);
        input
    }

    /// A price within about 0.25 % of the level.
    pub fn near_price(&mut self) -> u32 {
        let distance = (self.level / 400).max(10);
        let price = self.level - distance + self.random.below(2 * distance + 1);
        price.clamp(5_000, 50_000_000)
    }

    pub fn near_ticked_price(&mut self) -> u32 {
        (self.near_price() / 10 * 10).max(5_000)
    }

    /// A few calls of a minute with a market, now and then a halt.
    pub fn busy_minute(&mut self) -> usize {
        for _ in 0..self.random.between(1, 3) {
            match self.random.below(12) {
                0..=5 => self.any_quote(),
                6..=9 => self.any_trade(),
                10 => {
                    self.file.halt();
                    if self.random.chance(60) {
                        self.file.resume();
                    }
                }
                _ => {
                    self.file.resume();
                }
            }
        }
        0
    }

    /// Minute ends with one index, mostly a price near the level.
    pub fn quiet_minutes(&mut self, count: usize) {
        let index = match self.random.chance(5) {
            true => 0,
            false => self.near_price(),
        };
        self.minute_ends(count, index);
    }

    /// After the contract's end a few stand for all.
    pub fn minute_ends(&mut self, count: usize, index: u32) {
        let count = match self.contract {
            Contract::Ended => count.min(REFUSED_MINUTE_ENDS),
            _ => count,
        };
        self.file.minute_ends(count, index);
    }

    /// The last minute without a trade, now and then after the market has ended.
    pub fn quiet_last_minute(&mut self) {
        if self.random.chance(40) {
            self.one_sided_quote();
        }
        self.quiet_minutes(1);
    }

    /// `count` minutes in all, with `events` called in some of them. It gives the number of
    /// minutes that it ended itself.
    pub fn minutes(&mut self, count: usize, busy: usize, events: fn(&mut Self) -> usize) {
        let mut left = count;
        for _ in 0..busy {
            if left < LONGEST_EVENTS {
                break;
            }
            left -= events(self);
            let quiet = self.random.below((2 * left / busy) as u32 + 1) as usize;
            self.quiet_minutes(quiet.min(left));
            left -= quiet.min(left);
        }
        self.quiet_minutes(left);
    }
}

//! The accepted calls since the opening, as lists, beside the records that do nothing. Nothing here is
//! a running sum.

mod day;

pub use day::{Day, NotAccepted};

use crate::call::{Account, Call, Trade};
use crate::file::Record;
use std::collections::BTreeMap;

/// A trade as one account's list keeps it.
#[derive(Clone, Copy, Debug, PartialEq, Eq)]
pub struct AccountTrade {
    /// The day counted from 0.
    pub day: usize,
    /// Whether it came between fix and close.
    pub after_fix: bool,
    pub trade: Trade,
}

/// A halt or a resume, with its place among the calls of its day.
#[derive(Clone, Copy, Debug, PartialEq, Eq)]
pub struct HaltOrResume {
    pub day: usize,
    pub place: usize,
    pub is_halt: bool,
}

#[derive(Clone, Debug)]
pub struct History {
    pub size: u8,
    /// The closed days and, last, the open one.
    pub days: Vec<Day>,
    /// The trades of each account that has any, in order.
    pub trades: BTreeMap<Account, Vec<AccountTrade>>,
    /// Halts and resumes of all days, in order.
    pub halts: Vec<HaltOrResume>,
}

impl History {
    pub fn new(size: u8) -> Self {
        History {
            size,
            days: vec![Day::default()],
            trades: BTreeMap::new(),
            halts: Vec::new(),
        }
    }

    pub fn closed_days(&self) -> usize {
        self.days.len() - 1
    }

    pub fn open_day(&self) -> &Day {
        &self.days[self.closed_days()]
    }

    pub fn last_closed_day(&self) -> Option<&Day> {
        self.days[..self.closed_days()].last()
    }

    /// Adds an accepted call to the lists.
    pub fn add(&mut self, call: Call) {
        let day = self.closed_days();
        self.days[day].add(call);
        match call {
            Call::Trade(trade) => self.add_trade(trade),
            Call::Halt | Call::Resume => self.halts.push(HaltOrResume {
                day,
                place: self.days[day].calls.len() - 1,
                is_halt: call == Call::Halt,
            }),
            Call::Close => self.days.push(Day::default()),
            Call::Quote(_) | Call::TimedQuote(_) | Call::MinuteEnd(_) => {}
            Call::Fix(_) | Call::FinalFix(_) => {}
            Call::LengthOfDay(_) | Call::FinalDate(_) => {}
        }
    }

    /// Adds a record that wasn't accepted.
    pub fn add_not_accepted(&mut self, record: Record) {
        let day = self.closed_days();
        let place = self.days[day].calls.len();
        self.days[day]
            .not_accepted
            .push(NotAccepted { record, place });
    }

    fn add_trade(&mut self, trade: Trade) {
        let account_trade = AccountTrade {
            day: self.closed_days(),
            after_fix: self.open_day().is_fixed(),
            trade,
        };
        for account in trade.accounts() {
            self.trades.entry(account).or_default().push(account_trade);
        }
    }

    pub fn trades_of(&self, account: Account) -> &[AccountTrade] {
        self.trades.get(&account).map_or(&[], Vec::as_slice)
    }

    /// The halts and resumes before a place among the calls of a day.
    pub fn halts_before(&self, day: usize, place: usize) -> &[HaltOrResume] {
        let is_before = |halt: &HaltOrResume| (halt.day, halt.place) < (day, place);
        &self.halts[..self.halts.partition_point(is_before)]
    }
}

#[cfg(test)]
mod tests {
    use super::*;
    use crate::call::{Market, Month};
    use dayformat::tag;

    /// The separate lists hold what a walk over all calls finds.
    #[test]
    fn the_separate_lists_agree_with_the_calls() {
        let history = sample();
        for (number, day) in history.days.iter().enumerate() {
            let places = |is: fn(&Call) -> bool| -> Vec<usize> {
                (0..day.calls.len())
                    .filter(|place| is(&day.calls[*place]))
                    .collect()
            };
            assert_eq!(
                day.minute_ends,
                places(|call| matches!(call, Call::MinuteEnd(_)))
            );
            assert_eq!(Vec::from_iter(day.fix), places(|call| call.is_fix()));
            assert_eq!(
                Vec::from_iter(day.length_of_day),
                places(|call| matches!(call, Call::LengthOfDay(_)))
            );
            assert_eq!(
                Vec::from_iter(day.final_date),
                places(|call| matches!(call, Call::FinalDate(_)))
            );
            let listed = |is_halt| -> Vec<usize> {
                let of_day = history.halts.iter().filter(|halt| halt.day == number);
                of_day
                    .filter(|halt| halt.is_halt == is_halt)
                    .map(|halt| halt.place)
                    .collect()
            };
            assert_eq!(listed(true), places(|call| *call == Call::Halt));
            assert_eq!(listed(false), places(|call| *call == Call::Resume));
        }
        for account in 0..=u16::MAX {
            let walked = trades_by_walking(&history, account);
            assert_eq!(history.trades_of(account), walked);
        }
    }

    #[test]
    fn halts_before_a_place() {
        let history = sample();
        let before = |day, place| history.halts_before(day, place).len();
        assert_eq!([before(0, 8), before(0, 9), before(0, 11)], [0, 1, 3]);
        assert_eq!([before(1, 0), before(1, 9), before(1, 10)], [3, 4, 5]);
    }

    fn trades_by_walking(history: &History, account: Account) -> Vec<AccountTrade> {
        let mut trades = Vec::new();
        for (day, list) in history.days.iter().enumerate() {
            for (place, call) in list.calls.iter().enumerate() {
                let Call::Trade(trade) = *call else { continue };
                if trade.buyer == account || trade.seller == account {
                    let after_fix = list.calls[..place].iter().any(|call| call.is_fix());
                    trades.push(AccountTrade {
                        day,
                        after_fix,
                        trade,
                    });
                }
            }
        }
        trades
    }

    fn sample() -> History {
        let trade = |buyer, seller| {
            Call::Trade(Trade {
                buyer,
                seller,
                kind: 0,
                quantity: 1,
                price: 5_000,
                tag: tag::TWO_BYTE_TRADE,
            })
        };
        let day = [
            Call::LengthOfDay(1_140),
            Call::Quote(Market {
                bid: 5_000,
                offer: 5_010,
            }),
            trade(1, 2),
            Call::MinuteEnd(5_000),
            Call::MinuteEnd(0),
            trade(2, 2),
            Call::Fix(5_000),
            trade(2, 1_023),
            Call::Halt,
            Call::Resume,
            Call::Halt,
            Call::Close,
        ];
        let mut history = History::new(1);
        for call in day.iter().chain(&day[..11]) {
            history.add(*call);
        }
        history.add(Call::Close);
        history.add(Call::FinalDate(Month {
            year: 2_035,
            month: 10,
        }));
        history.add(Call::FinalFix(5_000));
        history.add(trade(2, 7));
        history
    }
}

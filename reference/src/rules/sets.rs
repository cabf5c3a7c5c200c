//! Sets of trades. All sentences are of 02-6, unless marked.

use crate::call::{Account, Trade};
use crate::sets::SetCheck;

pub trait SetRules: Sync {
    /// 13: "A set with no trades or over 500".
    fn is_length(&self, trades: usize) -> bool {
        (1..=500).contains(&trades)
    }

    /// "4, which a halted book gives to any set".
    fn halt_forbids(&self, _trades: &[Trade], halted: bool) -> bool {
        halted
    }

    /// 13 is "checked after 4 [...] and before 5"; "the first in list order that doesn't [pass] gives
    /// its number, and only then come 7 and 8". 01: 3 comes before 4; 02-5: 12 after 5.
    fn checking_order(&self, trades: &[Trade]) -> Vec<SetCheck> {
        let mut order = vec![SetCheck::Day, SetCheck::Halt, SetCheck::Length];
        for place in 0..trades.len() {
            order.extend([SetCheck::Field(place), SetCheck::Account(place)]);
        }
        let all = trades.len();
        order.extend([SetCheck::Volume(all), SetCheck::Position(all)]);
        order
    }

    /// Whether 7 or 8 looks at an account of these trades. 02-5: "The book's limits hold for each of
    /// 1,024 accounts."
    fn judges(&self, _check: SetCheck, _trades: &[Trade], _account: Account) -> bool {
        true
    }

    /// The v that 7 judges, by that before the set and what each trade adds: "Volume and position
    /// limits are judged on the state after the entire set."
    fn volume_after(&self, before: i128, added: &[i128]) -> i128 {
        before + added.iter().sum::<i128>()
    }

    /// The position that 8 judges, likewise.
    fn position_after(&self, before: i128, added: &[i128]) -> i128 {
        before + added.iter().sum::<i128>()
    }

    /// Of the first check that is met.
    fn number(&self, check: SetCheck) -> u8 {
        check.number()
    }

    /// What a set adds to the accepted calls: "accepted whole or not at all"; "in demand 3's lists an
    /// accepted set stands for its trades".
    fn leaves(&self, trades: &[Trade], refused: Option<SetCheck>) -> Vec<Trade> {
        match refused {
            None => trades.to_vec(),
            Some(_) => Vec::new(),
        }
    }
}

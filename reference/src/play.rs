//! Plays a file's records against the history of accepted calls.

use crate::accounts::{position, ClosedDays};
use crate::call::{Account, Call, Trade};
use crate::file::{records, Record};
use crate::history::History;
use crate::refusal::{refusal, FILE};
use crate::rules::Rules;
use crate::sets::set_refusal;
use crate::settlement::{settlement, Settlement};
use crate::terms::ACCOUNTS;
use crate::Lists;

/// What became of one record.
#[derive(Clone, Copy, Debug, PartialEq, Eq)]
pub enum Answer {
    Accepted(Call),
    AcceptedSet,
    Refused(u8),
    Unknown,
}

/// A whole run: the accepted calls and the answer to each record.
pub struct Played {
    pub history: History,
    pub answers: Vec<Answer>,
    pub rules: Rules,
}

/// Plays a file on a fresh book, none when the size is refused.
pub fn play(size: u8, file: &[u8], rules: Rules) -> Option<Played> {
    if !rules.calls.is_size(size) {
        return None;
    }
    let mut history = History::new(size);
    let answers = records(file, rules.files)
        .into_iter()
        .map(|record| answer(&mut history, record, rules))
        .collect();
    Some(Played {
        history,
        answers,
        rules,
    })
}

fn answer(history: &mut History, record: Record, rules: Rules) -> Answer {
    match record {
        Record::Call(call) => answer_to_call(history, call, rules),
        Record::Set(trades) => answer_to_set(history, trades, rules),
        Record::Unknown => {
            history.add_not_accepted(record);
            Answer::Unknown
        }
        Record::WrongLength | Record::CutOff => {
            history.add_not_accepted(record);
            Answer::Refused(FILE)
        }
    }
}

fn answer_to_call(history: &mut History, call: Call, rules: Rules) -> Answer {
    let refusal = refusal(history, call, rules);
    match rules.refusals.changes_book(refusal) {
        true => history.add(call),
        false => history.add_not_accepted(Record::Call(call)),
    }
    refusal.map_or(Answer::Accepted(call), Answer::Refused)
}

fn answer_to_set(history: &mut History, trades: Vec<Trade>, rules: Rules) -> Answer {
    let refused = set_refusal(history, &trades, rules);
    for trade in rules.sets.leaves(&trades, refused) {
        history.add(Call::Trade(trade));
    }
    match refused {
        None => Answer::AcceptedSet,
        Some(check) => {
            history.add_not_accepted(Record::Set(trades));
            Answer::Refused(rules.sets.number(check))
        }
    }
}

impl Played {
    pub fn accepted(&self) -> u64 {
        let is_accepted = |answer: &&Answer| self.rules.files.is_accepted(**answer);
        self.answers.iter().filter(is_accepted).count() as u64
    }

    /// What the run for C gives with lists of these lengths: accepted records, and the lists unless they
    /// stay untouched.
    pub fn c_run(&self, lengths: [usize; 2]) -> (u64, Option<Lists>) {
        let files = self.rules.files;
        match lengths.iter().any(|length| files.refuses_list(*length)) {
            true => (0, None),
            false => (self.accepted(), files.lists(self)),
        }
    }

    /// The settlements of the fixed days, in order.
    pub fn settlements(&self) -> Vec<Settlement> {
        (0..self.history.days.len())
            .filter_map(|day| settlement(&self.history, day, self.rules))
            .collect()
    }

    /// Positions and cash where the run ended.
    pub fn report(&self) -> Lists {
        let (history, rules) = (&self.history, self.rules);
        let settlements = self.settlements();
        let closed = ClosedDays::new(history, &settlements[..history.closed_days()]);
        (
            self.by_account(|account| position(history, account, history.days.len(), rules)),
            self.by_account(|account| closed.cash(history, account, rules.calls)),
        )
    }

    /// A list of a figure that is 0 for an account without trades.
    fn by_account(&self, figure: impl Fn(Account) -> i128) -> [i64; ACCOUNTS] {
        let mut list = [0; ACCOUNTS];
        for account in self.history.trades.keys() {
            if let Some(entry) = list.get_mut(usize::from(*account)) {
                *entry = i64::try_from(figure(*account)).expect("fits 64 bits");
            }
        }
        list
    }
}

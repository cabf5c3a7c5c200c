//! The generated inputs tell every wrong ledger from the right one and meet every refusal.

use differential::profiles::{input, long_input, set_input};
use differential::wrong::{WrongLedger, ALL, OF_EXPIRY, WITH_SETS};
use reference::call::Call;
use reference::file::{records, Record};
use reference::history::Day;
use reference::play::{Answer, Played};
use reference::printout::bench_text;
use reference::rules::{CallRules, Rules};
use reference::settlement::{price_by_rules, PriceRule};
use reference::{
    bench, bench_under, c_run_of, library_printout, library_printout_under, run, size_and_records,
    Lists,
};

/// A ledger that every second file has told apart so often is played no further.
const ENOUGH: u64 = 5;

/// Inputs, the ledger that is right on them, and the wrong ones.
struct Inputs {
    of_seed: fn(u64) -> Vec<u8>,
    files: u64,
    right: Rules,
    wrong: &'static [WrongLedger],
    /// What a library's printout tells besides the bench's.
    c_run: fn(Option<&Played>) -> CRun,
}

/// Accepted records, and the lists unless they stay untouched.
type CRun = (u64, Option<Lists>);

static DAY_FILES: Inputs = Inputs {
    of_seed: input,
    files: 1_000,
    right: Rules::RIGHT,
    wrong: &ALL,
    c_run: c_run_of,
};

static DAY_FILES_FOR_EXPIRY: Inputs = Inputs {
    wrong: &OF_EXPIRY,
    ..DAY_FILES
};

/// No library plays them.
static INPUTS_WITH_SETS: Inputs = Inputs {
    of_seed: set_input,
    files: 500,
    right: Rules::WITH_SETS,
    wrong: &WITH_SETS,
    c_run: |_| (0, None),
};

/// How often a wrong ledger was told apart, up to enough, and at which seed first.
#[derive(Clone, Copy, Default)]
struct Bites {
    files: u64,
    first: Option<u64>,
}

impl Inputs {
    /// Both printouts of a ledger.
    fn printouts(&self, rules: Rules, input: &[u8]) -> (String, CRun) {
        let played = run(rules, input);
        let played = played.as_ref();
        let bench = match input.len() <= rules.files.bench_limit() {
            true => bench_text(played),
            false => bench_under(rules, input),
        };
        (bench, (self.c_run)(played))
    }

    /// The bites of every second seed, for each wrong ledger.
    fn bites(&self, from: u64) -> Vec<Bites> {
        let mut bites = vec![Bites::default(); self.wrong.len()];
        for seed in (from..self.files).step_by(2) {
            let input = (self.of_seed)(seed);
            let right = self.printouts(self.right, &input);
            for (wrong, bites) in self.wrong.iter().zip(&mut bites) {
                if bites.files < ENOUGH && self.printouts(wrong.rules, &input) != right {
                    bites.files += 1;
                    bites.first.get_or_insert(seed);
                }
            }
        }
        bites
    }

    /// Prints how often each wrong ledger was told apart; those that never were.
    fn never_told_apart(&'static self) -> Vec<&'static WrongLedger> {
        let other = std::thread::spawn(|| self.bites(1));
        let even = self.bites(0);
        let odd = other.join().expect("the odd seeds are played");
        let mut never = Vec::new();
        for (wrong, (even, odd)) in self.wrong.iter().zip(even.iter().zip(&odd)) {
            let files = even.files + odd.files;
            match even.first.into_iter().chain(odd.first).min() {
                Some(seed) => println!("{files:>5} first {seed:>3} {}", wrong.name),
                None => never.push(wrong),
            }
        }
        never
    }
}

/// A ledger with another limit of days differs only in a file of more than 2,600 days.
fn differs_in_a_long_file(wrong: &WrongLedger) -> bool {
    let input = long_input(1);
    let differs = library_printout_under(wrong.rules, &input) != library_printout(&input);
    if differs {
        println!(" long file {}", wrong.name);
    }
    differs
}

fn assert_none(ledgers: &[&WrongLedger]) {
    let names: Vec<&str> = ledgers.iter().map(|wrong| wrong.name).collect();
    assert!(names.is_empty(), "never told apart: {names:?}");
}

#[test]
fn every_wrong_ledger_is_told_apart() {
    let mut never = DAY_FILES.never_told_apart();
    never.retain(|wrong| !differs_in_a_long_file(wrong));
    assert_none(&never);
}

#[test]
fn every_wrong_ledger_of_expiry_is_told_apart() {
    assert_none(&DAY_FILES_FOR_EXPIRY.never_told_apart());
}

#[test]
fn every_wrong_ledger_of_sets_is_told_apart() {
    assert_none(&INPUTS_WITH_SETS.never_told_apart());
}

/// Its last closed day is then the last that a book holds.
#[test]
fn a_long_file_may_end_with_a_final_date() {
    let played = run(Rules::RIGHT, &long_input(2)).expect("the size is good");
    let last = played.history.last_closed_day();
    assert_eq!(played.history.closed_days(), 2_600);
    assert!(last.is_some_and(Day::is_final));
    let (positions, cash) = played.report();
    assert!(positions.iter().all(|position| *position == 0));
    assert!(cash.iter().any(|cash| *cash != 0));
}

/// Asserts that some file counts for each of these numbers, and none for another.
fn assert_met(files: &[u64], numbers: &[usize]) {
    println!("files by refusal number: {files:?}");
    for (number, files) in files.iter().enumerate() {
        assert_eq!(*files > 0, numbers.contains(&number), "refusal {number}");
    }
}

#[test]
fn every_refusal_of_a_file_is_met() {
    let mut files = [0; 15];
    for seed in 0..DAY_FILES.files / 4 {
        let printout = bench(&input(seed));
        for (number, files) in files.iter_mut().enumerate() {
            *files += u64::from(printout.contains(&format!("refused {number} record")));
        }
    }
    assert_met(&files, &[1, 3, 4, 5, 6, 7, 8, 9, 11, 12, 14]);
}

/// The answers to the sets of an input.
fn answers_to_sets(input: &[u8]) -> Vec<Answer> {
    let rules = Rules::WITH_SETS;
    let counted = &input[..input.len().min(rules.files.bench_limit())];
    let answers = run(rules, counted).map_or(Vec::new(), |played| played.answers);
    let records = records(size_and_records(counted).1, rules.files).into_iter();
    let answered = records.zip(answers);
    let of_sets = answered.filter(|(record, _)| matches!(record, Record::Set(_)));
    of_sets.map(|(_, answer)| answer).collect()
}

#[test]
fn every_refusal_of_a_set_is_met() {
    let (mut files, mut accepted) = ([0; 15], 0);
    for seed in 0..INPUTS_WITH_SETS.files / 4 {
        let answers = answers_to_sets(&set_input(seed));
        for (number, files) in files.iter_mut().enumerate() {
            *files += u64::from(answers.contains(&Answer::Refused(number as u8)));
        }
        accepted += u64::from(answers.contains(&Answer::AcceptedSet));
    }
    assert_met(&files, &[3, 4, 5, 7, 8, 12, 13]);
    assert!(accepted > 0);
}

/// Settles by one of the rules alone.
struct Only(&'static [PriceRule]);

impl CallRules for Only {
    fn price_rules(&self) -> &'static [PriceRule] {
        self.0
    }
}

/// For a set price, trades, midpoints, the index and an hourly value: the fixed days of a file that settle
/// by it.
fn days_by_rule(input: &[u8]) -> [usize; 5] {
    static ALONE: [Only; 2] = [Only(&[PriceRule::Trades]), Only(&[PriceRule::Midpoints])];
    let mut days = [0; 5];
    let Some(played) = run(Rules::RIGHT, input) else {
        return days;
    };
    for (number, day) in played.history.days.iter().enumerate() {
        let gives_price = |calls| {
            let rules = Rules {
                calls,
                ..Rules::RIGHT
            };
            price_by_rules(&played.history, number, 0, rules).is_some()
        };
        let rule = match day.fixed_by() {
            Some(Call::Fix(0)) => 1 + ALONE.iter().take_while(|rule| !gives_price(*rule)).count(),
            Some(Call::Fix(_)) => 0,
            Some(Call::FinalFix(_)) => 4,
            _ => continue,
        };
        days[rule] += 1;
    }
    days
}

#[test]
fn days_settle_by_every_rule() {
    let mut days = [0; 5];
    for seed in 0..DAY_FILES.files / 4 {
        for (sum, count) in days.iter_mut().zip(days_by_rule(&input(seed))) {
            *sum += count;
        }
    }
    println!("days by set price, trades, midpoints, index and hourly value: {days:?}");
    assert!(days.iter().all(|count| *count > 20), "{days:?}");
}

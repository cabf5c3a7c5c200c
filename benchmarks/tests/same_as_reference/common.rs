//! Runs of the ledger that is timed, held to the reference.

use benchmarks::{answers, run, sets, ACCOUNTS};
use reference::play::{play, Answer, Played};
use reference::rules::Rules;
use reference::{c_run_of, size_and_records, Lists};

/// The answer to each record, none to an unknown one.
pub type Answers = Vec<Option<Result<(), u8>>>;

const UNTOUCHED: Lists = ([i64::MIN; ACCOUNTS], [i64::MIN; ACCOUNTS]);

/// What the reference gives, in the form of the ledger that is timed. No answers when the size is refused.
fn answers_of(played: Option<&Played>) -> Answers {
    let as_timed = |answer: &Answer| match answer {
        Answer::Accepted(_) | Answer::AcceptedSet => Some(Ok(())),
        Answer::Refused(number) => Some(Err(*number)),
        Answer::Unknown => None,
    };
    let answers = played.map_or(&[][..], |played| &played.answers);
    answers.iter().map(as_timed).collect()
}

/// The answers to an input and the lists, the same as the reference's.
pub fn same_run(name: &str, input: &[u8]) -> (Answers, Lists) {
    let (size, file) = size_and_records(input);
    let mut lists = UNTOUCHED;
    let accepted = run(size, file, &mut lists.0, &mut lists.1);
    let played = play(size, file, Rules::RIGHT);
    let (expected, expected_lists) = c_run_of(played.as_ref());
    assert_eq!(accepted, expected, "{name}: accepted records");
    let expected_lists = expected_lists.unwrap_or(UNTOUCHED);
    assert!(lists == expected_lists, "{name}: lists");
    let answers = answers(size, file);
    assert!(answers == answers_of(played.as_ref()), "{name}: answers");
    (answers, lists)
}

/// The answers to an input, in which there may be sets, and the lists, the same as the reference's.
pub fn same_run_with_sets(name: &str, input: &[u8]) -> (Answers, Lists) {
    let (size, file) = size_and_records(input);
    let mut lists = UNTOUCHED;
    let answers = sets::answers_with_sets(size, file, &mut lists.0, &mut lists.1);
    let played = play(size, file, Rules::WITH_SETS);
    let (_, expected_lists) = c_run_of(played.as_ref());
    let expected_lists = expected_lists.unwrap_or(UNTOUCHED);
    assert!(lists == expected_lists, "{name}: lists");
    assert!(answers == answers_of(played.as_ref()), "{name}: answers");
    (answers, lists)
}

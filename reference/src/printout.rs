//! What the programs print.

use crate::accounts::ClosedDays;
use crate::c_run_of;
use crate::call::{Account, Call};
use crate::play::{Answer, Played};
use crate::rules::AtClose;
use crate::settlement::Settlement;

/// What the bench program prints of a run, none when the size is refused.
pub fn bench_text(played: Option<&Played>) -> String {
    let mut printed = match played {
        None => vec!["refused 5 record 0".to_string()],
        Some(played) => lines(played),
    };
    printed.push("end\n".to_string());
    printed.join("\n")
}

/// What a program that links the C library prints of it.
pub fn library_text(played: Option<&Played>) -> String {
    let (accepted, lists) = c_run_of(played);
    let mut text = format!("accepted {accepted}\n");
    match lists {
        None => text.push_str("untouched\n"),
        Some((positions, cash)) => {
            for (position, cash) in positions.iter().zip(cash) {
                text.push_str(&format!("{position} {cash}\n"));
            }
        }
    }
    text
}

fn lines(played: &Played) -> Vec<String> {
    let settlements = played.settlements();
    let (mut closes, mut place) = (0, 0);
    let mut lines = Vec::new();
    for answer in &played.answers {
        place += usize::from(played.rules.files.counts_in_places(*answer));
        match answer {
            Answer::Refused(number) => lines.push(format!("refused {number} record {place}")),
            Answer::Accepted(call) if call.is_fix() => {
                lines.push(fix_line(closes + 1, settlements[closes]));
            }
            Answer::Accepted(Call::FinalDate(month)) => {
                lines.push(format!("final {}", played.rules.expiry.printed(*month)));
            }
            Answer::Accepted(Call::Close) => {
                closes += 1;
                lines.extend(close_lines(played, &settlements[..closes]));
            }
            _ => {}
        }
    }
    lines
}

fn fix_line(day: usize, settlement: Settlement) -> String {
    format!(
        "day {day} price {} rate {} amount {} valid {}",
        settlement.price, settlement.rate, settlement.amount, settlement.valid_minutes
    )
}

/// The accounts after the close of the last of the given settlements.
fn close_lines(played: &Played, settlements: &[Settlement]) -> Vec<String> {
    let (history, rules) = (&played.history, played.rules);
    let closed = ClosedDays::new(history, settlements);
    let line = |account: Account| {
        let at = AtClose {
            history,
            account,
            days: closed.count(),
            rules,
        };
        let cash = closed.cash(history, account, rules.calls);
        let shown = rules
            .files
            .close_prints(rules.expiry.net_to_print_by(&at), cash);
        let net = || rules.expiry.printed_net(&at);
        shown.then(|| format!("acct {account} net {} cash {cash}", net()))
    };
    // Without trades an account has neither.
    let traded = history.trades.range(rules.files.printed_accounts());
    traded.filter_map(|(account, _)| line(*account)).collect()
}

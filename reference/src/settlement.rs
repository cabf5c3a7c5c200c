//! A day's settlement price, rate and amount.

use crate::call::Call;
use crate::fraction::Fraction;
use crate::history::{Day, History};
use crate::midpoints::midpoint_price;
use crate::minutes::{valid_minutes, ValidMinute};
use crate::rules::{CallRules, Rules};

#[derive(Clone, Copy, Debug, PartialEq, Eq)]
pub struct Settlement {
    pub price: i128,
    /// The clamped rate in whole nano.
    pub rate: i128,
    /// Cents per contract.
    pub amount: i128,
    pub valid_minutes: usize,
}

/// A way to a settlement price.
#[derive(Clone, Copy, Debug, PartialEq, Eq)]
pub enum PriceRule {
    SetPrice,
    /// The last minute's trades.
    Trades,
    /// The last minute's midpoints over time.
    Midpoints,
    /// The day's index.
    Index,
}

/// What the fix of a day gives, none when the day isn't fixed.
pub fn settlement(history: &History, day: usize, rules: Rules) -> Option<Settlement> {
    let price = fixed_price(history, day, rules)?;
    let rules = rules.calls;
    let minutes = valid_minutes(history, day, rules);
    let rate = rules.rate(average_basis(&minutes, rules));
    let rate = rate.clamped(rules.terms(day).clamp);
    Some(Settlement {
        price,
        rate: rules.half_even(rate),
        amount: rules.amount(rate, price, history.size),
        valid_minutes: minutes.len(),
    })
}

/// The average of the bases by their weights, 0 without any.
pub fn average_basis(minutes: &[ValidMinute], rules: &dyn CallRules) -> Fraction {
    let (mut weighted_sum, mut weights) = (Fraction::whole(0), 0);
    for (i, minute) in (1..).zip(minutes) {
        let weight = rules.weight(i, minute);
        weighted_sum = weighted_sum.plus(minute.basis.times(weight));
        weights += weight;
    }
    // Without a minute the sum is 0.
    weighted_sum.divided_by(weights.max(1))
}

/// The settlement price of a fixed day.
fn fixed_price(history: &History, day: usize, rules: Rules) -> Option<i128> {
    let fix = history.days[day].fixed_by()?;
    settlement_price(history, day, fix, rules)
}

/// The settlement price that this fix gives to a day whose minutes have ended.
pub fn settlement_price(history: &History, day: usize, fix: Call, rules: Rules) -> Option<i128> {
    match fix {
        Call::FinalFix(hourly) => Some(rules.expiry.final_price(history, day, hourly, rules)),
        Call::Fix(set_price) => price_by_rules(history, day, set_price, rules),
        _ => None,
    }
}

/// The price of the first rule that gives one.
pub fn price_by_rules(history: &History, day: usize, set_price: u32, rules: Rules) -> Option<i128> {
    let days = &history.days[..=day];
    rules
        .calls
        .price_rules()
        .iter()
        .find_map(|rule| match rule {
            PriceRule::SetPrice => Some(i128::from(set_price)).filter(|price| *price != 0),
            PriceRule::Trades => traded_price(days, rules.calls),
            PriceRule::Midpoints => midpoint_price(days, rules),
            PriceRule::Index => index_price(history, day, rules),
        })
}

/// "When n > 0, half-even of gross / n", for the last of the days.
fn traded_price(days: &[Day], rules: &dyn CallRules) -> Option<i128> {
    let (mut n, mut gross) = (0, 0);
    for call in rules.settlement_calls(days) {
        match call {
            Call::Trade(trade) if rules.counts_in_settlement(*trade) => {
                n += i128::from(trade.quantity);
                gross += i128::from(trade.quantity) * i128::from(trade.price);
            }
            _ => {}
        }
    }
    (n > 0).then(|| rules.average_price(gross, n))
}

/// By the indexes of the day and the closed day before, and that day's price.
fn index_price(history: &History, day: usize, rules: Rules) -> Option<i128> {
    let previous_price = match day {
        0 => 0,
        _ => fixed_price(history, day - 1, rules)?,
    };
    let rules = rules.calls;
    let index = rules.index(&history.days[..=day]);
    let previous_index = rules.previous_index(&history.days[..day]);
    rules.index_price(index, previous_price, previous_index)
}

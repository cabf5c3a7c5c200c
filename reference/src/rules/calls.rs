//! Units, products, and a trade date call by call.

use crate::accounts::{volume, ClosedDays};
use crate::call::{Account, Call, Market, Trade};
use crate::fraction::Fraction;
use crate::history::{AccountTrade, Day, HaltOrResume, History};
use crate::minutes::{Minute, Start, ValidMinute};
use crate::settlement::PriceRule;
use crate::terms::{Terms, AMOUNT_DIVISOR, FULL_DAY, NANO, SHORT_DAY};
use dayformat::kind::SIMPLE;
use std::cmp::Ordering;

/// Days count from 0, minutes from 1. A rule that takes a list of days is asked about the last of them,
/// unless they are the earlier ones.
pub trait CallRules: Sync {
    /// "'Half-even' is the nearest whole number, a tie going to the even one, alike for negative
    /// values."
    fn half_even(&self, value: Fraction) -> i128 {
        let below = value.floor();
        match value.compare(Fraction::new(2 * below + 1, 2)) {
            Ordering::Less => below,
            Ordering::Equal => self.tie(below),
            Ordering::Greater => below + 1,
        }
    }

    /// The even one of `below` and the number after it.
    fn tie(&self, below: i128) -> i128 {
        below + below.rem_euclid(2)
    }

    /// "Clamp 2,000,000 nano, spread limit 0.005."
    fn terms(&self, _day: usize) -> Terms {
        Terms {
            clamp: 2_000_000,
            spread_factor: 400,
        }
    }

    /// "Contract size 1 or 10."
    fn is_size(&self, size: u8) -> bool {
        size == 1 || size == 10
    }

    /// "A price is 5,000 to 50,000,000."
    fn is_price(&self, value: i128) -> bool {
        (5_000..=50_000_000).contains(&value)
    }

    /// "A ticked price is also a multiple of 10."
    fn is_ticked_price(&self, value: i128) -> bool {
        self.is_price(value) && value % 10 == 0
    }

    // Length of day. 02-1: "The last minute in document 01 is the day's own everywhere: trades for
    // settlement, index, minute ends and fix allowed." In quotations it is [the last minute].

    /// 02-1: it "sets 1,320 or 1,140".
    fn is_length(&self, minutes: u16) -> bool {
        minutes == FULL_DAY || minutes == SHORT_DAY
    }

    /// 02-1: "Without it the day has 1,320." 02-7: a final date has "length 1,020, a third length, which
    /// a book holds exactly on a final date".
    fn day_length(&self, days: &[Day]) -> usize {
        let given = days.last().and_then(Day::given_length);
        given.unwrap_or(FULL_DAY).into()
    }

    // Quote, halt and resume.

    /// "If both stand, it is also the minute's market"; "a halt removes the market and the minute's
    /// market".
    fn minute_market(&self, at_start: Option<Market>, calls: &[Call]) -> Option<Market> {
        let last = calls.iter().rev().find_map(|call| match call {
            Call::Halt => Some(None),
            _ => call
                .quoted()
                .filter(|market| market.is_two_sided())
                .map(Some),
        });
        last.unwrap_or(at_start)
    }

    /// The market after a resume: "Resuming restores neither."
    fn resumed_market(&self, _earlier: &[Call]) -> Market {
        Market::NONE
    }

    /// By the halts and resumes of all days so far: "A halt carries over."
    fn is_halted(&self, so_far: &[HaltOrResume], _today: usize) -> bool {
        so_far.last().is_some_and(|last| last.is_halt)
    }

    // Trade.

    /// "The quantity is plus for the buyer, minus for the seller, and both for a trade with oneself."
    fn signed_quantity(&self, trade: Trade, account: Account) -> i128 {
        trade.bought(account) - trade.sold(account)
    }

    /// "Each account's v rises by the quantity"; with oneself "v rises twice".
    fn contracts(&self, trade: Trade, account: Account) -> i128 {
        trade.bought(account) + trade.sold(account)
    }

    /// "Per account": the v that a trade adds to.
    fn volume(&self, history: &History, account: Account) -> i128 {
        volume(history, account, self)
    }

    /// v is "contracts bought plus sold today".
    fn counts_in_volume(&self, trade: &AccountTrade, today: usize) -> bool {
        trade.day == today
    }

    /// 02-2: "The trade now takes only simple trades as the last trade price."
    fn sets_last(&self, trade: Trade) -> bool {
        trade.kind == SIMPLE
    }

    /// The last trade price after calls of one minute: "The price becomes the day's last trade."
    fn last_trade(&self, at_start: Option<u32>, calls: &[Call]) -> Option<u32> {
        let last = calls.iter().rev().find_map(|call| match call {
            Call::Trade(trade) if self.sets_last(*trade) => Some(trade.price),
            _ => None,
        });
        last.or(at_start)
    }

    /// "A kind 0 trade" adds to n and gross,
    fn counts_in_settlement(&self, trade: Trade) -> bool {
        trade.kind == SIMPLE
    }

    /// "after [the minute end before the last one] and before [the last one]".
    fn settlement_calls<'a>(&self, days: &'a [Day]) -> &'a [Call] {
        let length = self.day_length(days);
        days.last().map_or(&[], |day| day.calls_of_minute(length))
    }

    // Minute end.

    /// "The minute is valid when the book isn't halted, the minute's market (b, a) exists, u is not
    /// 0, and 400 × (a − b) ≤ a + b"; else none.
    fn minute_basis(&self, minute: &Minute, terms: Terms) -> Option<Fraction> {
        let sampled = !minute.halted && minute.index != 0;
        let market = minute.market.filter(|_| sampled)?;
        self.spread_is_valid(market, terms)
            .then(|| self.basis(self.futures_price(market, minute.last), minute.index))
    }

    /// "400 × (a − b) ≤ a + b."
    fn spread_is_valid(&self, market: Market, terms: Terms) -> bool {
        terms.spread_factor * market.spread() <= market.sum()
    }

    /// "F is the last trade if there is one today and b ≤ it ≤ a, else (a + b)/2."
    fn futures_price(&self, market: Market, last: Option<u32>) -> i128 {
        let inside = last.filter(|price| market.bid <= *price && *price <= market.offer);
        inside.map_or(market.sum() / 2, i128::from)
    }

    /// "Basis = half-even of (F − u) × 10^9 / u."
    fn basis(&self, futures_price: i128, index: u32) -> Fraction {
        let index = i128::from(index);
        Fraction::whole(self.half_even(Fraction::new((futures_price - index) * NANO, index)))
    }

    /// "S adds i × basis for the i-th of them"; "weights count valid minutes, not clock minutes".
    fn weight(&self, i: usize, _minute: &ValidMinute) -> i128 {
        i as i128
    }

    /// "The next minute's market is the standing market if two-sided, else none."
    fn next_minute_market(&self, at_start: Option<Market>, calls: &[Call]) -> Option<Market> {
        let standing = calls.iter().rev().find_map(|call| match call {
            Call::Halt => Some(None),
            _ => call.quoted().map(two_sided),
        });
        standing.unwrap_or(at_start)
    }

    /// "The u of [the last minute] is the day's index"; "0 without one".
    fn index(&self, days: &[Day]) -> i128 {
        let length = self.day_length(days);
        days.last().map_or(0, |day| day.index(length).into())
    }

    // Fix.

    /// "The set price if given; else, when n > 0, half-even of gross / n; else day's index + previous
    /// price − previous index." 02-4: the step of the midpoints "stands after trades and before the
    /// index step".
    fn price_rules(&self) -> &'static [PriceRule] {
        &[
            PriceRule::SetPrice,
            PriceRule::Trades,
            PriceRule::Midpoints,
            PriceRule::Index,
        ]
    }

    /// "Half-even of gross / n."
    fn average_price(&self, gross: i128, contracts: i128) -> i128 {
        self.half_even(Fraction::new(gross, contracts))
    }

    /// 02-4: "The sum over the total, half-even"; `exact` is the quotient.
    fn average_midpoint(&self, exact: Fraction) -> i128 {
        self.half_even(exact)
    }

    /// "When all three are nonzero and the result is a price."
    fn index_price(&self, index: i128, previous_price: i128, previous_index: i128) -> Option<i128> {
        let given = index != 0 && previous_price != 0 && previous_index != 0;
        let price = index + previous_price - previous_index;
        (given && self.is_price(price)).then_some(price)
    }

    /// "The index of the closed day before."
    fn previous_index(&self, earlier: &[Day]) -> i128 {
        self.index(earlier)
    }

    /// "Rate = half-even of S / (k(k+1)/2)"; `exact` is the quotient.
    fn rate(&self, exact: Fraction) -> Fraction {
        Fraction::whole(self.half_even(exact))
    }

    /// "Amount = half-even of −(clamped rate) × P × size / 10^11."
    fn amount(&self, clamped_rate: Fraction, price: i128, size: u8) -> i128 {
        let product = clamped_rate.times(-price * i128::from(size));
        self.half_even(product.divided_by(AMOUNT_DIVISOR))
    }

    // Close.

    /// "Per account, cash rises": whether it does for this one.
    fn posts_to(&self, _account: Account) -> bool {
        true
    }

    /// "Market and last trade start empty."
    fn start_of_day(&self, _earlier: &[Day]) -> Start {
        Start::default()
    }

    /// What a contract bought has gained: "(last closed P − trade price)".
    fn gain(&self, trade: &AccountTrade, closed: &ClosedDays) -> i128 {
        closed.last_price - i128::from(trade.trade.price)
    }

    /// What is paid on it: "Trades between fix and close count in the positions of that close."
    fn amounts(&self, trade: &AccountTrade, closed: &ClosedDays) -> i128 {
        closed.amounts_from(trade.day)
    }
}

fn two_sided(market: Market) -> Option<Market> {
    Some(market).filter(|market| market.is_two_sided())
}

#[cfg(test)]
mod tests {
    use super::*;
    use crate::rules::RightLedger;

    #[test]
    fn ties_go_to_the_even_one_on_both_sides_of_zero() {
        let half = |n| RightLedger.half_even(Fraction::new(n, 2));
        assert_eq!(
            [-7, -5, -3, -1, 1, 3, 5, 7].map(half),
            [-4, -2, -2, 0, 0, 2, 2, 4]
        );
    }

    #[test]
    fn other_values_go_to_the_nearest() {
        let third = |n| RightLedger.half_even(Fraction::new(n, 3));
        assert_eq!(
            [-5, -4, -3, -2, -1, 0, 1, 2, 3, 4, 5].map(third),
            [-2, -1, -1, -1, 0, 0, 0, 1, 1, 1, 2]
        );
    }
}

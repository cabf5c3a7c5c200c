//! The wrong ledgers of sets, on inputs of `set_bench`.

mod checks;
mod effects;
mod limits;

use super::expiry::{in_expiry, SetsAfterTheEnd};
use super::{in_calls, in_midpoints, in_refusals, WrongLedger};
use checks::*;
use effects::*;
use limits::*;
use reference::rules::{Rules, SetRules};

const fn in_sets(name: &'static str, sets: &'static dyn SetRules) -> WrongLedger {
    let rules = Rules {
        sets,
        ..Rules::WITH_SETS
    };
    WrongLedger { name, rules }
}

/// The ledger that breaks another rule reads sets too.
const fn with_sets(wrong: WrongLedger) -> WrongLedger {
    let rules = Rules {
        files: Rules::WITH_SETS.files,
        ..wrong.rules
    };
    WrongLedger { rules, ..wrong }
}

pub static WITH_SETS: [WrongLedger; 82] = [
    // Order, end, halt and length.
    with_sets(in_expiry("sets-after-end", &SetsAfterTheEnd)),
    in_sets("set-halt-before-day", &HALT_BEFORE_DAY),
    in_sets("set-length-before-day", &LENGTH_BEFORE_DAY),
    in_sets("set-field-before-day", &FIELD_BEFORE_DAY),
    in_sets("set-length-before-halt", &LENGTH_BEFORE_HALT),
    in_sets("set-field-before-halt", &FIELD_BEFORE_HALT),
    in_sets("set-account-before-halt", &ACCOUNT_BEFORE_HALT),
    in_sets("set-volume-before-halt", &VOLUME_BEFORE_HALT),
    in_sets("set-position-before-halt", &POSITION_BEFORE_HALT),
    in_sets("set-field-before-length", &FIELD_BEFORE_LENGTH),
    in_sets("set-account-before-length", &ACCOUNT_BEFORE_LENGTH),
    in_sets("set-volume-before-length", &VOLUME_BEFORE_LENGTH),
    in_sets("set-position-before-length", &POSITION_BEFORE_LENGTH),
    in_sets("set-volume-before-field", &VOLUME_BEFORE_FIELD),
    in_sets("set-position-before-field", &POSITION_BEFORE_FIELD),
    in_sets("set-volume-before-account", &VOLUME_BEFORE_ACCOUNT),
    in_sets("set-position-before-account", &POSITION_BEFORE_ACCOUNT),
    in_sets("set-position-before-volume", &POSITION_BEFORE_VOLUME),
    in_sets("set-account-before-field", &ACCOUNT_BEFORE_FIELD),
    in_sets("set-all-fields-first", &ALL_FIELDS_FIRST),
    in_sets("set-all-accounts-first", &ALL_ACCOUNTS_FIRST),
    in_sets("set-number-of-last-bad-trade", &LAST_BAD_TRADE),
    in_sets("set-judged-one-by-one", &JUDGED_ONE_BY_ONE),
    in_sets("set-volume-one-by-one", &VOLUME_ONE_BY_ONE),
    in_sets("set-position-one-by-one", &POSITION_ONE_BY_ONE),
    in_sets("set-accepted-in-halt", &SET_ACCEPTED_IN_HALT),
    in_sets("empty-set-not-halted", &EMPTY_SET_NOT_HALTED),
    in_sets("long-set-not-halted", &LONG_SET_NOT_HALTED),
    in_sets("set-of-500-refused", &SET_OF_500_REFUSED),
    in_sets("set-of-501-accepted", &SET_OF_501_ACCEPTED),
    in_sets("empty-set-accepted", &EMPTY_SET_ACCEPTED),
    in_sets("set-length-given-5", &LengthGiven5),
    // The state that 7 and 8 judge.
    in_sets("set-volume-of-first-trade", &VOLUME_OF_FIRST_TRADE),
    in_sets("set-volume-of-last-trade", &VOLUME_OF_LAST_TRADE),
    in_sets("set-volume-of-all-but-first", &VOLUME_OF_ALL_BUT_FIRST),
    in_sets("set-volume-of-all-but-last", &VOLUME_OF_ALL_BUT_LAST),
    in_sets("set-volume-of-buyers", &VOLUME_OF_BUYERS),
    in_sets("set-volume-of-sellers", &VOLUME_OF_SELLERS),
    in_sets("set-volume-of-one-byte", &VOLUME_OF_ONE_BYTE),
    in_sets("set-position-of-first-trade", &POSITION_OF_FIRST_TRADE),
    in_sets("set-position-of-last-trade", &POSITION_OF_LAST_TRADE),
    in_sets("set-position-of-all-but-first", &POSITION_OF_ALL_BUT_FIRST),
    in_sets("set-position-of-all-but-last", &POSITION_OF_ALL_BUT_LAST),
    in_sets("set-position-of-buyers", &POSITION_OF_BUYERS),
    in_sets("set-position-of-sellers", &POSITION_OF_SELLERS),
    in_sets("set-position-of-one-byte", &POSITION_OF_ONE_BYTE),
    in_sets("set-volume-limit-one-less", &VOLUME_LIMIT_ONE_LESS),
    in_sets("set-volume-limit-one-more", &VOLUME_LIMIT_ONE_MORE),
    in_sets("set-volume-of-set-alone", &VOLUME_OF_SET_ALONE),
    in_sets(
        "set-volume-after-largest-trade",
        &VOLUME_AFTER_LARGEST_TRADE,
    ),
    in_sets("set-position-limit-one-less", &POSITION_LIMIT_ONE_LESS),
    in_sets("set-position-limit-one-more", &POSITION_LIMIT_ONE_MORE),
    in_sets("set-position-of-set-alone", &POSITION_OF_SET_ALONE),
    in_sets(
        "set-position-after-largest-trade",
        &POSITION_AFTER_LARGEST_TRADE,
    ),
    in_sets("set-position-on-the-way", &POSITION_ON_THE_WAY),
    in_sets("set-long-positions-alone", &LONG_POSITIONS_ALONE),
    in_sets("set-short-positions-alone", &SHORT_POSITIONS_ALONE),
    // What a set leaves.
    in_sets("set-up-to-bad-trade-applied", &UP_TO_BAD_TRADE),
    in_sets("set-after-bad-trade-applied", &AFTER_BAD_TRADE),
    in_sets("set-past-volume-applied", &VOLUME_REFUSED_APPLIED),
    in_sets("set-past-position-applied", &POSITION_REFUSED_APPLIED),
    in_sets("set-over-500-applied", &LONG_SET_APPLIED),
    in_sets("set-reversed", &REVERSED),
    in_sets(
        "set-first-simple-trade-is-last",
        &FIRST_SIMPLE_TRADE_IS_LAST,
    ),
    in_sets("set-first-trade-lost", &FIRST_TRADE_LOST),
    in_sets("set-last-trade-lost", &LAST_TRADE_LOST),
    in_sets("set-trade-500-lost", &TRADE_500_LOST),
    in_sets("set-equal-trades-once", &EQUAL_TRADES_ONCE),
    in_sets("set-at-average-price", &AT_AVERAGE_PRICE),
    with_sets(in_calls("set-leaves-last", &SET_LEAVES_LAST)),
    with_sets(in_calls("set-blocks-set-last", &BLOCKS_OF_SET_SET_LAST)),
    with_sets(in_calls("set-not-in-settlement", &SET_NOT_IN_SETTLEMENT)),
    with_sets(in_calls(
        "set-blocks-in-settlement",
        &BLOCKS_OF_SET_IN_SETTLEMENT,
    )),
    with_sets(in_calls("set-leaves-cost", &SET_LEAVES_COST)),
    with_sets(in_calls("set-not-in-volume", &SET_NOT_IN_VOLUME)),
    with_sets(in_calls("set-leaves-volume", &SetLeavesVolume)),
    with_sets(in_calls(
        "set-self-trade-once-in-volume",
        &SELF_TRADE_OF_SET_ONCE,
    )),
    with_sets(in_calls(
        "set-after-fix-without-amount",
        &SetAfterFixWithoutAmount,
    )),
    with_sets(in_refusals("length-after-set", &LENGTH_AFTER_SET)),
    with_sets(in_expiry("final-date-after-set", &FINAL_DATE_AFTER_SET)),
    with_sets(in_refusals(
        "refused-set-begins-date",
        &REFUSED_SET_BEGINS_DATE,
    )),
    with_sets(in_midpoints("time-reset-by-set", &TIME_RESET_BY_SET)),
];

//! The wrong ledgers of final dates and of a contract's end.

mod calendar;
mod dates;
mod ends;
mod fixes;

pub use dates::FinalDateAfter;
pub use ends::SetsAfterTheEnd;

use super::account_numbers::UnknownTag;
use super::refusals::{moved, CheckMoved, Order};
use super::{in_calls, in_files, in_refusals, WrongLedger};
use calendar::*;
use dates::*;
use dayformat::tag;
use ends::*;
use fixes::*;
use reference::history::Day;
use reference::refusal::{Check, CHECKING_ORDER};
use reference::rules::{ExpiryRules, Rules};

pub const fn in_expiry(name: &'static str, expiry: &'static dyn ExpiryRules) -> WrongLedger {
    let rules = Rules {
        expiry,
        ..Rules::RIGHT
    };
    WrongLedger { name, rules }
}

/// The wrong length if the date is final, else the right one.
fn length_of(day: &Day, right: usize, wrong: usize) -> usize {
    match day.is_final() {
        true => wrong,
        false => right,
    }
}

const HALT_FIRST: Order = moved(CHECKING_ORDER, Check::Halt, Check::Day);

static HALT_BEFORE_DAY: CheckMoved = CheckMoved(&HALT_FIRST);
static TAG_11_UNKNOWN: UnknownTag = UnknownTag(tag::FINAL_DATE);
static TAG_12_UNKNOWN: UnknownTag = UnknownTag(tag::FINAL_FIX);

pub static OF_EXPIRY: [WrongLedger; 81] = [
    // Last Fridays and months.
    in_expiry("fourth-friday", &FourthFriday),
    in_expiry("month-printed", &MonthPrinted),
    in_expiry("weekday-one-less", &WEEKDAY_ONE_LESS),
    in_expiry("weekday-one-more", &WEEKDAY_ONE_MORE),
    in_expiry("leap-years-left-out", &LeapYearsLeftOut),
    in_expiry("leap-day-after-its-year", &LeapDayAfterItsYear),
    in_expiry("years-past-2050-accepted", &YEARS_PAST_2050),
    in_expiry("year-2024-accepted", &YEAR_2024),
    in_expiry("year-2025-refused", &YEAR_2025_REFUSED),
    in_expiry("year-2050-refused", &YEAR_2050_REFUSED),
    in_expiry("december-refused", &DECEMBER_REFUSED),
    in_expiry("any-month-accepted", &ANY_MONTH),
    in_expiry("month-13-as-january", &MONTH_13_AS_JANUARY),
    in_expiry("month-0-as-december", &MONTH_0_AS_DECEMBER),
    // Where a final date may come.
    in_refusals("month-before-day", &MONTH_BEFORE_DAY),
    in_refusals("final-date-refused-in-halt", &FinalDateRefusedInHalt),
    WrongLedger {
        name: "length-after-final-date",
        rules: Rules {
            refusals: &LengthAfterFinalDate,
            expiry: &LengthAfterFinalDate,
            ..Rules::RIGHT
        },
    },
    in_expiry("final-date-after-length", &AFTER_LENGTH),
    in_expiry("final-date-after-final-date", &AFTER_FINAL_DATE),
    in_expiry("final-date-after-quote", &AFTER_QUOTE),
    in_expiry("final-date-after-timed-quote", &AFTER_TIMED_QUOTE),
    in_expiry("final-date-after-trade", &AFTER_TRADE),
    in_expiry("final-date-after-two-byte-trade", &AFTER_TWO_BYTE_TRADE),
    in_expiry("final-date-after-block", &AFTER_BLOCK),
    in_expiry("final-date-after-halt", &AFTER_HALT),
    in_expiry("final-date-after-resume", &AFTER_RESUME),
    in_expiry("final-date-after-minute-end", &AFTER_MINUTE_END),
    in_refusals("final-date-begins-nothing", &FINAL_DATE_BEGINS_NOTHING),
    in_refusals(
        "refused-final-date-begins-date",
        &REFUSED_FINAL_DATE_BEGINS_DATE,
    ),
    in_expiry(
        "carried-halt-begins-final-date",
        &CarriedHaltBeginsFinalDate,
    ),
    // Its length.
    in_calls("length-1020-accepted", &LENGTH_1020_ACCEPTED),
    WrongLedger {
        name: "length-1020-is-final",
        rules: Rules {
            calls: &Length1020IsFinal,
            expiry: &Length1020IsFinal,
            ..Rules::RIGHT
        },
    },
    in_expiry("final-date-is-ordinary", &FinalDateIsOrdinary),
    in_calls("final-date-of-1320", &FINAL_DATE_OF_1320),
    in_calls("final-date-of-1140", &FINAL_DATE_OF_1140),
    in_calls("final-date-of-1019", &FINAL_DATE_OF_1019),
    in_refusals("final-minute-ends-to-1320", &FinalMinuteEndsTo1320),
    in_refusals("final-fix-from-1320", &FINAL_FIX_FROM_1320),
    in_refusals("final-fix-from-1019", &FINAL_FIX_FROM_1019),
    in_refusals("final-fix-at-any-time", &FINAL_FIX_AT_ANY_TIME),
    // Its fix and price.
    in_expiry("fix-on-final-date", &FIX_ON_FINAL_DATE),
    in_expiry("final-fix-on-another-date", &FINAL_FIX_ON_ANOTHER_DATE),
    in_refusals("final-fix-twice", &FinalFixTwice),
    in_refusals("final-fix-field-before-day", &FINAL_FIX_FIELD_BEFORE_DAY),
    in_refusals("fix-field-before-day", &FIX_FIELD_BEFORE_DAY),
    in_expiry("zero-is-no-value", &ZERO_IS_NO_VALUE),
    in_expiry("any-value-accepted", &ANY_VALUE),
    in_expiry("ticked-values-alone", &TICKED_VALUES_ALONE),
    in_expiry("dimes-tie-up", &DIMES_TIE_UP),
    in_expiry("dimes-tie-down", &DIMES_TIE_DOWN),
    in_expiry("dimes-tie-odd", &DIMES_TIE_ODD),
    in_expiry("dimes-cut", &DIMES_CUT),
    in_expiry("dimes-raised", &DIMES_RAISED),
    in_expiry("value-not-rounded", &VALUE_NOT_ROUNDED),
    in_expiry("final-price-by-four-rules", &PRICE_BY_FOUR_RULES),
    // The final close.
    in_calls("amount-after-clearing", &AmountAfterClearing),
    in_calls("posted-after-clearing", &PostedAfterClearing),
    in_calls(
        "present-cleared-before-posting",
        &PresentClearedBeforePosting,
    ),
    in_calls("cash-cleared", &CashCleared),
    in_expiry("positions-not-cleared", &NOT_CLEARED),
    in_expiry("every-close-clears", &EVERY_CLOSE_CLEARS),
    in_expiry("short-close-clears", &SHORT_CLOSE_CLEARS),
    in_expiry("printed-before-clearing", &PrintedBeforeClearing),
    in_expiry("cleared-accounts-printed", &ClearedAccountsPrinted),
    // After the end. A fix, a close and the fix of a final date meet 3 on a date that has only begun.
    in_expiry("all-calls-after-end", &ALL_CALLS),
    in_expiry("quotes-after-end", &QUOTES),
    in_expiry("timed-quotes-after-end", &TIMED_QUOTES),
    in_expiry("trades-after-end", &TRADES),
    in_expiry("two-byte-trades-after-end", &TWO_BYTE_TRADES),
    in_expiry("minute-ends-after-end", &MINUTE_ENDS),
    in_expiry("halts-after-end", &HALTS),
    in_expiry("resumes-after-end", &RESUMES),
    in_expiry("lengths-after-end", &LENGTHS),
    in_expiry("final-dates-after-end", &FINAL_DATES),
    in_expiry("end-forgotten", &EndForgotten),
    in_expiry("ended-by-final-fix", &EndedByFinalFix),
    in_refusals("halt-before-day", &HALT_BEFORE_DAY),
    // Files and printouts.
    in_files("tag-11-unknown", &TAG_11_UNKNOWN),
    in_files("tag-12-unknown", &TAG_12_UNKNOWN),
    in_files("final-date-not-counted", &FINAL_DATE_NOT_COUNTED),
    in_files("final-fix-not-counted", &FINAL_FIX_NOT_COUNTED),
];

//! The wrong ledgers: each breaks one rule of the reference and keeps the others. Tests must tell
//! each from the right one.

mod account_numbers;
mod accounts;
mod expiry;
mod files;
mod lengths;
mod midpoints;
mod minutes;
mod of_tag;
mod refusals;
mod rounding;
mod sets;
mod settlement;
mod times;
mod two_byte_trades;

pub use expiry::OF_EXPIRY;
pub use sets::WITH_SETS;

use account_numbers::*;
use accounts::*;
use files::*;
use lengths::*;
use midpoints::*;
use minutes::*;
use reference::rules::{CallRules, FileRules, MidpointRules, RefusalRules, Rules};
use refusals::*;
use rounding::*;
use settlement::*;
use times::*;
use two_byte_trades::*;

pub struct WrongLedger {
    pub name: &'static str,
    pub rules: Rules,
}

pub fn named(name: &str) -> Option<&'static WrongLedger> {
    all().find(|wrong| wrong.name == name)
}

pub fn all() -> impl Iterator<Item = &'static WrongLedger> {
    ALL.iter().chain(&OF_EXPIRY).chain(&WITH_SETS)
}

const fn in_calls(name: &'static str, calls: &'static dyn CallRules) -> WrongLedger {
    let rules = Rules {
        calls,
        ..Rules::RIGHT
    };
    WrongLedger { name, rules }
}

const fn in_midpoints(name: &'static str, midpoints: &'static dyn MidpointRules) -> WrongLedger {
    let rules = Rules {
        midpoints,
        ..Rules::RIGHT
    };
    WrongLedger { name, rules }
}

const fn in_refusals(name: &'static str, refusals: &'static dyn RefusalRules) -> WrongLedger {
    let rules = Rules {
        refusals,
        ..Rules::RIGHT
    };
    WrongLedger { name, rules }
}

const fn in_files(name: &'static str, files: &'static dyn FileRules) -> WrongLedger {
    let rules = Rules {
        files,
        ..Rules::RIGHT
    };
    WrongLedger { name, rules }
}

/// A static, so that their rules are compiled here alone.
pub static ALL: [WrongLedger; 187] = [
    // Rounding.
    in_calls("tie-up", &TieUp),
    in_calls("tie-away-from-zero", &TieAwayFromZero),
    in_calls("tie-toward-zero-for-negatives", &TieTowardZeroForNegatives),
    in_calls(
        "tie-away-from-zero-for-negatives",
        &TieAwayFromZeroForNegatives,
    ),
    in_calls("half-of-divisor-cut", &HalfOfDivisorCut),
    in_calls("round-toward-zero", &RoundTowardZero),
    in_calls("round-negatives-toward-zero", &RoundNegativesTowardZero),
    in_calls("next-by-quotient-sign", &NextByQuotientSign),
    in_calls("basis-not-rounded", &BasisNotRounded),
    in_calls("rate-not-rounded", &RateNotRounded),
    in_calls("settlement-price-to-tick", &SettlementPriceToTick),
    // Markets and halts, minutes, rates and amounts.
    in_calls("clock-minute-weights", &ClockMinuteWeights),
    in_calls("invalid-minutes-in-count", &InvalidMinutesInCount),
    in_calls("opposite-amount-sign", &OppositeAmountSign),
    in_calls("no-clamp", &NoClamp),
    in_calls("strict-spread", &StrictSpread),
    in_calls("last-at-side-outside", &LastAtSideOutside),
    in_calls("spread-trades-set-last", &LAST_OF_SPREAD_TRADES),
    in_calls("blocks-set-last", &LAST_OF_BLOCKS),
    in_calls("other-kinds-clear-last", &OtherKindsClearLast),
    in_calls("other-kinds-set-first-last", &OtherKindsSetFirstLast),
    in_calls("last-of-the-minute-only", &LastOfTheMinuteOnly),
    in_calls("close-keeps-last", &CloseKeepsLast),
    in_calls("close-keeps-market", &CloseKeepsMarket),
    in_calls("one-sided-serves-next-minute", &OneSidedServesNextMinute),
    in_calls("one-sided-ends-minute-market", &OneSidedEndsMinuteMarket),
    in_calls("wide-quote-ignored", &WideQuoteIgnored),
    in_calls("halt-keeps-minute-market", &HaltKeepsMinuteMarket),
    in_calls("resume-restores-market", &ResumeRestoresMarket),
    in_calls("close-drops-halt", &CloseDropsHalt),
    // Settlement prices.
    in_calls("blocks-in-settlement", &BlocksInSettlement),
    in_calls("spread-trades-in-settlement", &SpreadTradesInSettlement),
    in_calls("late-trades-in-settlement", &LateTradesInSettlement),
    in_calls("index-of-minute-before", &IndexOfMinuteBefore),
    in_calls("older-index-kept", &OlderIndexKept),
    in_calls("first-day-at-index", &FirstDayAtIndex),
    in_calls("trades-before-set-price", &TradesBeforeSetPrice),
    in_calls("index-rule-unbounded", &IndexRuleUnbounded),
    // Midpoints over the last minute.
    in_calls("midpoints-before-set-price", &MIDPOINTS_BEFORE_SET_PRICE),
    in_calls("midpoints-before-trades", &MIDPOINTS_BEFORE_TRADES),
    in_calls("index-before-midpoints", &INDEX_BEFORE_MIDPOINTS),
    in_calls("midpoints-left-out", &MIDPOINTS_LEFT_OUT),
    in_calls("midpoint-average-down", &AVERAGE_DOWN),
    in_calls("midpoint-average-tie-up", &AVERAGE_TIE_UP),
    in_calls("midpoint-average-to-tick", &AVERAGE_TO_TICK),
    in_midpoints("minute-market-weighed", &MINUTE_MARKET_WEIGHED),
    in_midpoints("market-weighed-through-halt", &WEIGHED_THROUGH_HALT),
    in_midpoints("timed-quote-not-weighed", &TIMED_QUOTE_NOT_WEIGHED),
    in_midpoints("timed-quote-alone-weighed", &TIMED_QUOTE_ALONE_WEIGHED),
    in_midpoints("one-side-weighed", &ONE_SIDE_WEIGHED),
    in_midpoints("half-of-one-side-weighed", &HALF_OF_ONE_SIDE_WEIGHED),
    in_midpoints("spread-limit-on-midpoints", &SpreadLimitOnMidpoints),
    in_midpoints("midpoints-not-weighted", &MidpointsNotWeighted),
    in_midpoints("half-minute-needed", &HalfMinuteNeeded),
    in_midpoints("market-at-start-not-weighed", &MarketAtStartNotWeighed),
    in_midpoints("start-from-minute-before", &StartFromMinuteBefore),
    in_midpoints("untimed-from-minute-before", &UntimedFromMinuteBefore),
    in_midpoints("untimed-quote-from-start", &UntimedQuoteFromStart),
    in_midpoints("time-lost-at-one-sided-quote", &TimeLostAtOneSidedQuote),
    in_midpoints("end-of-minute-not-added", &EndOfMinuteNotAdded),
    in_midpoints("end-of-minute-one-less", &EndOfMinuteOneLess),
    in_midpoints("next-market-weighed", &NextMarketWeighed),
    in_midpoints("timed-quote-needed", &TimedQuoteNeeded),
    in_midpoints("weighed-from-timed-quote", &WeighedFromTimedQuote),
    in_midpoints("midpoints-of-minute-1320", &MIDPOINTS_OF_MINUTE_1320),
    in_midpoints("midpoints-of-minute-before", &MIDPOINTS_OF_MINUTE_BEFORE),
    in_midpoints("time-after-last-minute-end", &TimeAfterLastMinuteEnd),
    in_midpoints("close-keeps-weights", &CloseKeepsWeights),
    // Times of quotes.
    in_midpoints("minute-end-keeps-time", &MinuteEndKeepsTime),
    in_midpoints("close-keeps-time", &CloseKeepsTime),
    in_midpoints("time-reset-by-halt", &TIME_RESET_BY_HALT),
    in_midpoints("time-reset-by-resume", &TIME_RESET_BY_RESUME),
    in_midpoints("time-reset-by-untimed-quote", &TIME_RESET_BY_UNTIMED_QUOTE),
    in_midpoints("time-reset-by-fix", &TIME_RESET_BY_FIX),
    in_midpoints("refused-quote-gives-time", &RefusedQuoteGivesTime),
    in_midpoints("time-in-last-minute-only", &TIME_IN_LAST_MINUTE_ONLY),
    in_midpoints("time-from-last-minute-on", &TIME_FROM_LAST_MINUTE_ON),
    in_midpoints("time-up-to-last-minute", &TIME_UP_TO_LAST_MINUTE),
    in_refusals("time-limit-one-less", &TIME_LIMIT_ONE_LESS),
    in_refusals("time-limit-one-more", &TIME_LIMIT_ONE_MORE),
    in_refusals("any-time-accepted", &ANY_TIME_ACCEPTED),
    in_refusals("equal-times-refused", &EqualTimesRefused),
    in_refusals("one-millisecond-back-accepted", &OneMillisecondBackAccepted),
    in_refusals("time-before-field", &TIME_BEFORE_FIELD),
    in_refusals("time-before-halt", &TIME_BEFORE_HALT),
    in_refusals("crossed-before-time", &CROSSED_BEFORE_TIME),
    in_refusals("timed-quote-accepted-in-halt", &TimedQuoteAcceptedInHalt),
    in_calls("timed-quote-not-minute-market", &TimedQuoteNotMinuteMarket),
    in_calls(
        "timed-quote-not-next-market",
        &TimedQuoteNotNextMinuteMarket,
    ),
    // Positions, volumes and cash.
    in_calls("amount-on-positions-at-fix", &AmountOnPositionsAtFix),
    in_calls("close-keeps-cost", &CloseKeepsCost),
    in_calls("other-kinds-leave-positions", &OtherKindsLeavePositions),
    in_calls("other-kinds-leave-cost", &OtherKindsLeaveCost),
    in_calls("self-trade-read-before-write", &SelfTradeReadBeforeWrite),
    in_calls("self-trade-once-in-volume", &SelfTradeOnceInVolume),
    in_calls("close-keeps-volume", &CloseKeepsVolume),
    // Refusals.
    in_refusals("refused-trade-takes-effect", &RefusedTradeTakesEffect),
    in_refusals("position-before-volume", &PositionBeforeVolume),
    in_refusals("buyer-before-seller", &BuyerBeforeSeller),
    in_refusals("field-before-halt", &FieldBeforeHalt),
    in_refusals("field-before-day", &FieldBeforeDay),
    in_refusals("crossed-before-field", &CrossedBeforeField),
    in_refusals("minute-end-refused-in-halt", &MinuteEndRefusedInHalt),
    in_refusals("day-limit-one-less", &DayLimitOneLess),
    in_refusals("day-limit-one-more", &DayLimitOneMore),
    in_refusals("minute-limit-one-more", &MinuteLimitOneMore),
    in_refusals("volume-limit-one-less", &VolumeLimitOneLess),
    in_refusals("position-limit-one-less", &PositionLimitOneLess),
    in_refusals("quantity-limit-one-less", &QuantityLimitOneLess),
    in_refusals("block-limit-one-more", &BlockLimitOneMore),
    in_calls("price-limits-one-less", &PriceLimitsOneLess),
    in_refusals("spread-trades-ticked", &SpreadTradesTicked),
    in_refusals("equal-sides-stand", &EqualSidesStand),
    // Lengths of day.
    in_calls("settlement-in-minute-1320", &SettlementInMinute1320),
    in_calls("index-of-minute-1320", &IndexOfMinute1320),
    in_refusals("minute-ends-to-1320", &MinuteEndsTo1320),
    in_refusals("fix-from-1320", &FIX_FROM_1320),
    in_refusals("fix-from-1140", &FIX_FROM_1140),
    in_refusals("fix-one-minute-early", &FIX_ONE_MINUTE_EARLY),
    in_calls("close-keeps-length", &CloseKeepsLength),
    in_refusals("close-keeps-begun", &CloseKeepsBegun),
    in_calls("length-1320-refused", &LENGTH_1320_REFUSED),
    in_calls("any-length-to-1320", &ANY_LENGTH_TO_1320),
    in_calls("any-length-from-1140", &ANY_LENGTH_FROM_1140),
    in_refusals("length-after-length", &LENGTH_AFTER_LENGTH),
    in_refusals("length-after-1320", &LENGTH_AFTER_1320),
    in_refusals("length-after-quote", &LENGTH_AFTER_QUOTE),
    in_refusals("length-after-timed-quote", &LENGTH_AFTER_TIMED_QUOTE),
    in_refusals("length-after-trade", &LENGTH_AFTER_TRADE),
    in_refusals("length-after-block", &LENGTH_AFTER_BLOCK),
    in_refusals("length-after-halt", &LENGTH_AFTER_HALT),
    in_refusals("length-after-resume", &LENGTH_AFTER_RESUME),
    in_refusals("length-after-minute-end", &LENGTH_AFTER_MINUTE_END),
    in_refusals("length-refused-in-halt", &LengthRefusedInHalt),
    in_refusals("length-field-before-day", &LengthFieldBeforeDay),
    in_refusals("carried-halt-begins-date", &CarriedHaltBeginsDate),
    in_refusals("refused-length-begins-date", &REFUSED_LENGTH_BEGINS_DATE),
    in_refusals("refused-call-begins-date", &REFUSED_CALL_BEGINS_DATE),
    in_refusals("wrong-length-begins-date", &WRONG_LENGTH_BEGINS_DATE),
    in_refusals("unknown-begins-date", &UNKNOWN_BEGINS_DATE),
    // Account numbers.
    in_refusals("account-1023-refused", &ACCOUNT_1023_REFUSED),
    in_refusals("account-1024-accepted", &ACCOUNT_1024_ACCEPTED),
    in_refusals("accounts-above-255-refused", &ACCOUNTS_ABOVE_255_REFUSED),
    in_refusals("any-account-accepted", &ANY_ACCOUNT_ACCEPTED),
    in_refusals("only-buyer-checked", &ONLY_BUYER_CHECKED),
    in_refusals("only-seller-checked", &ONLY_SELLER_CHECKED),
    in_refusals("account-before-halt", &ACCOUNT_BEFORE_HALT),
    in_refusals("account-before-field", &ACCOUNT_BEFORE_FIELD),
    in_refusals("volume-before-account", &VOLUME_BEFORE_ACCOUNT),
    in_refusals("position-before-account", &PositionBeforeAccount),
    in_refusals("refused-account-given-5", &RefusedAccountGiven5),
    in_refusals("refused-account-takes-effect", &RefusedAccountTakesEffect),
    in_refusals("volume-limit-above-255", &VOLUME_LIMIT_ABOVE_255),
    in_refusals("position-limit-above-255", &POSITION_LIMIT_ABOVE_255),
    in_calls("one-volume-of-a-low-byte", &OneVolumeOfALowByte),
    in_calls("close-posts-256-accounts", &ClosePosts256Accounts),
    in_files("low-byte-read", &LOW_BYTE_READ),
    in_files("low-byte-below-1024", &LOW_BYTE_BELOW_1024),
    in_files("account-modulo-1024", &ACCOUNT_MODULO_1024),
    in_files("low-byte-first", &LowByteFirst),
    in_files("close-prints-256-accounts", &ClosePrints256Accounts),
    in_files("reports-256-accounts", &Reports256Accounts),
    in_files("lists-of-256-needed", &ListsOf256Needed),
    in_files("tag-1-unknown", &TAG_1_UNKNOWN),
    in_files("tag-10-unknown", &TAG_10_UNKNOWN),
    in_files("tag-10-of-one-byte", &TAG_10_OF_ONE_BYTE),
    in_files("tag-1-of-two-bytes", &TAG_1_OF_TWO_BYTES),
    // Trades of tag 10.
    in_refusals("length-after-two-byte-trade", &LENGTH_AFTER_TWO_BYTE_TRADE),
    in_midpoints(
        "time-reset-by-two-byte-trade",
        &TIME_RESET_BY_TWO_BYTE_TRADE,
    ),
    in_refusals(
        "two-byte-trade-accepted-in-halt",
        &TwoByteTradeAcceptedInHalt,
    ),
    in_calls("two-byte-trade-leaves-last", &TWO_BYTE_TRADE_LEAVES_LAST),
    in_calls("two-byte-block-sets-last", &TWO_BYTE_BLOCK_SETS_LAST),
    in_calls(
        "two-byte-trade-not-in-settlement",
        &TWO_BYTE_TRADE_NOT_IN_SETTLEMENT,
    ),
    in_calls(
        "two-byte-block-in-settlement",
        &TWO_BYTE_BLOCK_IN_SETTLEMENT,
    ),
    in_calls("two-byte-trade-leaves-cost", &TWO_BYTE_TRADE_LEAVES_COST),
    in_calls(
        "two-byte-trade-leaves-volume",
        &TWO_BYTE_TRADE_LEAVES_VOLUME,
    ),
    in_files("two-byte-trade-not-counted", &TwoByteTradeNotCounted),
    // Files, printouts and reports.
    in_files("close-prints-both-nonzero", &ClosePrintsBothNonzero),
    in_files("unknown-not-in-places", &UnknownNotInPlaces),
    in_files("wrong-length-body-read", &WrongLengthBodyRead),
    in_files("wrong-length-ends-run", &WrongLengthEndsRun),
    in_files("cut-off-ignored", &CutOffIgnored),
    in_files("cut-off-unknown-ignored", &CutOffUnknownIgnored),
    in_files("leftover-bytes-ignored", &LeftoverBytesIgnored),
    in_files("input-limit-without-size", &InputLimitWithoutSize),
    in_files("unknown-accepted", &UnknownAccepted),
    in_files("nothing-accepted-untouched", &NothingAcceptedUntouched),
];

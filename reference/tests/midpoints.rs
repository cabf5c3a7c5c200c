//! Settlement by the last minute's midpoints over time. Every price is worked out by hand.

mod common;

use common::printout;
use dayformat::Writer;

/// A two-sided market with the given midpoint.
fn around(midpoint: u32) -> (u32, u32) {
    (midpoint - 10, midpoint + 10)
}

fn quote(file: &mut Writer, midpoint: u32) -> &mut Writer {
    let (bid, offer) = around(midpoint);
    file.quote(bid, offer)
}

fn timed(file: &mut Writer, time: u16, midpoint: u32) -> &mut Writer {
    let (bid, offer) = around(midpoint);
    file.timed_quote(time, bid, offer)
}

/// The settlement price of a day without samples, none when it has refusal 9. No other call is refused.
fn price(file: &Writer) -> Option<u32> {
    let text = printout(10, file);
    let line = text.strip_suffix("\nend\n").expect("the end");
    let price = line
        .strip_prefix("day 1 price ")
        .and_then(|line| line.strip_suffix(" rate 0 amount 0 valid 0"));
    assert!(
        price.is_some() || line.starts_with("refused 9 "),
        "not the fix alone: {text}"
    );
    price.map(|price| price.parse().expect("a number"))
}

type Calls = fn(&mut Writer) -> &mut Writer;

/// The price of a day with calls in its first minute and its last one.
fn price_with(first: Calls, last: Calls) -> Option<u32> {
    let mut file = Writer::new();
    first(&mut file);
    file.minute_ends(1_319, 0);
    last(&mut file);
    file.minute_ends(1, 0).fix(0);
    price(&file)
}

fn market_at_start(file: &mut Writer) -> &mut Writer {
    quote(file, 200_010)
}

fn none(file: &mut Writer) -> &mut Writer {
    file
}

#[test]
fn a_market_weighs_from_the_start_of_the_minute_or_its_own_time() {
    let price = |last| price_with(market_at_start, last);
    assert_eq!(price(none), Some(200_010));
    // (200,010 × 20,000 + 200,110 × 40,000) / 60,000 = 200,076.67
    let once: Calls = |file| timed(file, 20_000, 200_110);
    assert_eq!(price(once), Some(200_077));
    assert_eq!(price_with(none, once), Some(200_110));
    // (200,010 × 10,000 + 200,110 × 20,000 + 200,210 × 30,000) / 60,000 = 200,143.33
    let twice: Calls = |file| {
        timed(file, 10_000, 200_110);
        timed(file, 30_000, 200_210)
    };
    assert_eq!(price(twice), Some(200_143));
    // The first of two at one time weighs nothing.
    let equal: Calls = |file| {
        timed(file, 20_000, 300_000);
        timed(file, 20_000, 200_110)
    };
    assert_eq!(price(equal), Some(200_077));
    let at_start: Calls = |file| timed(file, 0, 200_110);
    assert_eq!(price(at_start), Some(200_110));
}

#[test]
fn the_last_millisecond_counts() {
    let at_end: Calls = |file| timed(file, 59_999, 5_060_000);
    assert_eq!(price_with(none, at_end), Some(5_060_000));
    // (5,000,000 × 59,999 + 5,060,000) / 60,000 = 5,000,001
    let before: Calls = |file| quote(file, 5_000_000);
    assert_eq!(price_with(before, at_end), Some(5_000_001));
    // 1 ms of the market at the start, and none afterwards.
    let removed: Calls = |file| file.timed_quote(1, 0, 0);
    assert_eq!(price_with(before, removed), Some(5_000_000));
}

#[test]
fn a_quote_of_tag_2_counts_at_the_latest_time() {
    let price = |last| price_with(market_at_start, last);
    let untimed: Calls = |file| quote(file, 200_050);
    assert_eq!(price(untimed), Some(200_050));
    // (200,010 × 15,000 + 200,050 × 45,000) / 60,000; the market between them stood 0 ms.
    let after: Calls = |file| quote(timed(file, 15_000, 300_000), 200_050);
    assert_eq!(price(after), Some(200_040));
    // (200,050 × 45,000 + 200,090 × 15,000) / 60,000
    let before: Calls = |file| timed(quote(file, 200_050), 45_000, 200_090);
    assert_eq!(price(before), Some(200_060));
    // A refused quote gives no time: the one of tag 2 counts at 15,000.
    let mut file = Writer::new();
    market_at_start(&mut file);
    file.minute_ends(1_319, 0);
    timed(&mut file, 15_000, 300_000)
        .timed_quote(30_000, 200_010, 200_000)
        .timed_quote(30_000, 200_001, 200_010)
        .timed_quote(60_000, 200_000, 200_010);
    quote(&mut file, 200_050).minute_ends(1, 0).fix(0);
    let expected = "refused 6 record 1322\nrefused 5 record 1323\nrefused 5 record 1324\n\
                    day 1 price 200040 rate 0 amount 0 valid 0\nend\n";
    assert_eq!(printout(10, &file), expected);
}

#[test]
fn a_halt_removes_the_market_at_the_latest_time() {
    let price = |last| price_with(market_at_start, last);
    assert_eq!(price(|file| file.halt()), None);
    // (200,010 × 10,000 + 200,110 × 20,000) / 30,000 = 200,076.67
    let at_third: Calls = |file| {
        timed(file, 10_000, 200_110);
        timed(file, 30_000, 300_000).halt()
    };
    assert_eq!(price(at_third), Some(200_077));
    // (200,010 × 10,000 + 200,110 × 20,000 + 200,070 × 30,000) / 60,000 = 200,073.33
    let resumed: Calls = |file| {
        timed(file, 10_000, 200_110);
        timed(file, 30_000, 300_000).halt().resume();
        quote(file, 200_070)
    };
    assert_eq!(price(resumed), Some(200_073));
    // (200,010 × 10,000 + 200,130 × 20,000) / 30,000: none from 10,000 to 40,000.
    let later: Calls = |file| {
        timed(file, 10_000, 300_000).halt().resume();
        timed(file, 40_000, 200_130)
    };
    assert_eq!(price(later), Some(200_090));
    assert_eq!(price_with(|file| quote(file, 200_010).halt(), none), None);
}

#[test]
fn a_market_with_one_side_weighs_nothing_and_ends_the_one_before() {
    let price = |last| price_with(market_at_start, last);
    for market in [(200_000, 0), (0, 200_020), (0, 0)] {
        let mut file = Writer::new();
        market_at_start(&mut file);
        file.minute_ends(1_319, 0)
            .timed_quote(20_000, market.0, market.1);
        // (200,010 × 20,000 + 200,040 × 10,000) / 30,000
        timed(&mut file, 50_000, 200_040).minute_ends(1, 0).fix(0);
        assert_eq!(self::price(&file), Some(200_020));
    }
    assert_eq!(price(|file| file.timed_quote(0, 200_000, 0)), None);
    assert_eq!(price(|file| file.quote(0, 200_000)), None);
    let one_sided: Calls = |file| file.quote(200_000, 0);
    assert_eq!(price_with(one_sided, none), None);
    // The minute's market is no standing one.
    let ended: Calls = |file| quote(file, 200_010).quote(200_000, 0);
    assert_eq!(price_with(none, ended), None);
}

#[test]
fn no_market_is_too_wide() {
    let wide: Calls = |file| file.quote(5_000, 50_000_000);
    assert_eq!(price_with(wide, none), Some(25_002_500));
    assert_eq!(
        price_with(|file| file.quote(49_999_990, 50_000_000), none),
        Some(49_999_995)
    );
}

/// Two markets, by the milliseconds of the second and both midpoints.
fn price_of_two(second: u16, first: (u32, u32), then: (u32, u32)) -> Option<u32> {
    let mut file = Writer::new();
    file.minute_ends(1_319, 0)
        .timed_quote(0, first.0, first.1)
        .timed_quote(60_000 - second, then.0, then.1)
        .minute_ends(1, 0)
        .fix(0);
    price(&file)
}

#[test]
fn a_half_cent_goes_to_the_even_one() {
    let (low, middle, high) = ((5_000, 5_010), (5_000, 5_020), (5_000, 5_030));
    // 5,007.5 and 5,012.5
    assert_eq!(price_of_two(30_000, low, middle), Some(5_008));
    assert_eq!(price_of_two(30_000, middle, high), Some(5_012));
    assert_eq!(price_of_two(30_000, high, middle), Some(5_012));
    // 5,012.5 and 5,017.5, and a millisecond on either side
    let (low, high) = ((5_000, 5_020), (5_010, 5_030));
    let seconds = [14_999, 15_000, 15_001, 44_999, 45_000, 45_001];
    let prices = [5_012, 5_012, 5_013, 5_017, 5_018, 5_018];
    assert_eq!(
        seconds.map(|second| price_of_two(second, low, high)),
        prices.map(Some)
    );
}

#[test]
fn half_cents_of_a_total_of_two() {
    let mut file = Writer::new();
    file.minute_ends(1_319, 0)
        .timed_quote(0, 5_000, 5_010)
        .timed_quote(1, 5_000, 5_020)
        .timed_quote(2, 5_000, 0)
        .minute_ends(1, 0)
        .fix(0);
    assert_eq!(price(&file), Some(5_008));
}

#[test]
fn times_of_other_minutes_count_for_nothing() {
    // The market of the minute before weighs from the start of the last one.
    let mut file = Writer::new();
    file.minute_ends(1_318, 0);
    timed(&mut file, 50_000, 200_010).minute_ends(1, 0);
    timed(&mut file, 20_000, 200_110).minute_ends(1, 0).fix(0);
    assert_eq!(price(&file), Some(200_077));
    // A quote of tag 2 in the last minute counts at 0.
    let mut file = Writer::new();
    file.minute_ends(1_318, 0);
    timed(&mut file, 50_000, 200_010).minute_ends(1, 0);
    quote(&mut file, 200_110).minute_ends(1, 0).fix(0);
    assert_eq!(price(&file), Some(200_110));
    // Nothing after the last minute end adds time.
    let mut file = Writer::new();
    file.minute_ends(1_320, 0);
    quote(&mut file, 200_010);
    timed(&mut file, 20_000, 200_110);
    timed(&mut file, 50_000, 200_210).fix(0);
    assert_eq!(price(&file), None);
}

#[test]
fn a_short_day_weighs_in_its_own_last_minute() {
    for (length, expected) in [(1_140, Some(200_077)), (1_320, None)] {
        let mut file = Writer::new();
        quote(file.length_of_day(length), 200_010).minute_ends(1_139, 0);
        timed(&mut file, 20_000, 200_110).minute_ends(1, 0);
        file.quote(0, 0)
            .minute_ends(usize::from(length) - 1_140, 0)
            .fix(0);
        assert_eq!(price(&file), expected);
    }
}

#[test]
fn midpoints_stand_after_trades_and_before_the_index() {
    let mut file = Writer::new();
    quote(&mut file, 200_010)
        .minute_ends(1_319, 200_000)
        .trade((1, 1), 1, 1, 200_300)
        .trade((1, 1), 2, 250, 200_300)
        .minute_ends(1, 200_000)
        .fix(0) // no simple trade
        .close();
    quote(&mut file, 200_050)
        .minute_ends(1_320, 200_100)
        .fix(0) // the index would give 200,110
        .close();
    quote(&mut file, 200_050)
        .minute_ends(1_319, 200_200)
        .trade((1, 1), 0, 1, 200_030)
        .minute_ends(1, 200_200)
        .fix(0) // a simple trade, outside the market
        .close();
    quote(&mut file, 200_050)
        .minute_ends(1_320, 200_300)
        .fix(200_060)
        .close();
    quote(&mut file, 200_050)
        .minute_ends(1_319, 200_400)
        .quote(200_000, 0)
        .minute_ends(1, 200_400)
        .fix(0) // 200,400 + 200,060 − 200,300
        .close()
        .minute_ends(1_320, 0)
        .fix(0);
    // Bases: 50,000, −249,875, −749,251, −1,248,128 and −1,746,507.
    let expected = "day 1 price 200010 rate 50000 amount -1 valid 1320\n\
                    day 2 price 200050 rate -249875 amount 5 valid 1320\n\
                    day 3 price 200030 rate -749251 amount 15 valid 1320\n\
                    day 4 price 200060 rate -1248128 amount 25 valid 1320\n\
                    day 5 price 200160 rate -1746507 amount 35 valid 1320\n\
                    refused 9 record 7940\nend\n";
    assert_eq!(printout(10, &file), expected);
}

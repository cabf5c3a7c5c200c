//! Printouts and C runs of hand-made files.

mod common;

use common::printout;
use dayformat::Writer;
use reference::{bench, c_run};

#[test]
fn the_example_of_document_01() {
    let mut file = Writer::new();
    file.quote(200_100, 200_300)
        .minute_ends(1_319, 200_000)
        .trade((3, 7), 0, 12, 200_200)
        .minute_ends(1, 200_000)
        .fix(0)
        .trade((7, 9), 0, 5, 200_100)
        .close();
    let expected = "day 1 price 200200 rate 1000000 amount -20 valid 1320\n\
                    acct 3 net 12 cash -24000\n\
                    acct 7 net -7 cash 19000\n\
                    acct 9 net -5 cash 5000\n\
                    end\n";
    assert_eq!(printout(10, &file), expected);
    let (mut positions, mut cash) = ([0; 1_024], [0; 1_024]);
    (positions[3], positions[7], positions[9]) = (12, -7, -5);
    (cash[3], cash[7], cash[9]) = (-24_000, 19_000, 5_000);
    assert_eq!(c_run(10, &file.bytes), (1_325, Some((positions, cash))));
}

#[test]
fn sizes_and_short_inputs() {
    assert_eq!(bench(&[]), "refused 5 record 0\nend\n");
    assert_eq!(bench(&[2, 4, 0, 0]), "refused 5 record 0\nend\n");
    assert_eq!(bench(&[1]), "end\n");
    assert_eq!(bench(&[10, 7]), "refused 1 record 1\nend\n");
    assert_eq!(bench(&[10, 9, 0]), "refused 1 record 1\nend\n");
    assert_eq!(bench(&[10, 77, 0]), "refused 1 record 1\nend\n");
    assert_eq!(c_run(2, &[4, 0, 0]), (0, None));
    assert_eq!(c_run(1, &[9, 0, 0]), (0, Some(([0; 1_024], [0; 1_024]))));
    assert_eq!(c_run(1, &[77, 0, 0]), (0, Some(([0; 1_024], [0; 1_024]))));
}

#[test]
fn unknown_wrong_length_and_cut_off_records() {
    let mut file = Writer::new();
    file.record(77, b"any")
        .record(4, &[5, 0, 0])
        .resume()
        .halt()
        .record(200, &[]);
    file.bytes.extend([99, 0, 4, 1, 2, 3]);
    let expected = "refused 1 record 2\nrefused 4 record 3\nrefused 1 record 6\nend\n";
    assert_eq!(printout(1, &file), expected);
    assert_eq!(c_run(1, &file.bytes).0, 1);
}

#[test]
fn the_bench_counts_65536_bytes_with_the_size_byte() {
    let filler = |length: usize| {
        let mut file = Writer::new();
        file.record(77, &vec![0; length - 1 - 3 - 3]).resume();
        file
    };
    assert_eq!(printout(1, &filler(65_536)), "refused 4 record 2\nend\n");
    assert_eq!(printout(1, &filler(65_537)), "refused 1 record 2\nend\n");
    assert_eq!(printout(1, &filler(65_539)), "end\n");
    let mut long = filler(65_539);
    long.halt();
    assert_eq!(printout(1, &long), "end\n");
    assert_eq!(c_run(1, &long.bytes).0, 1);
}

#[test]
fn a_day_that_can_not_be_fixed_until_a_set_price_comes() {
    let mut file = Writer::new();
    file.minute_ends(1_320, 200_000)
        .fix(0)
        .fix(4_999)
        .fix(200_001)
        .fix(200_001)
        .close()
        .minute_ends(1_320, 200_500)
        .fix(0)
        .close()
        .minute_ends(1_320, 0)
        .fix(0)
        .fix(300_000)
        .close()
        .minute_ends(1_320, 200_000)
        .fix(0);
    let expected = "refused 9 record 1321\nrefused 5 record 1322\n\
                    day 1 price 200001 rate 0 amount 0 valid 0\nrefused 3 record 1324\n\
                    day 2 price 200501 rate 0 amount 0 valid 0\n\
                    refused 9 record 3968\n\
                    day 3 price 300000 rate 0 amount 0 valid 0\n\
                    refused 9 record 5291\nend\n";
    assert_eq!(printout(1, &file), expected);
}

#[test]
fn the_last_minute_decides_the_price_by_simple_trades() {
    let mut file = Writer::new();
    file.minute_ends(1_318, 0)
        .trade((1, 2), 0, 1, 100_000)
        .minute_ends(1, 0)
        .trade((1, 2), 0, 1, 200_010)
        .trade((1, 1), 0, 1, 200_000)
        .trade((1, 2), 1, 1, 300_001)
        .trade((1, 2), 2, 250, 300_001)
        .minute_ends(1, 0)
        .trade((1, 2), 0, 1, 400_000)
        .fix(0);
    let expected = "day 1 price 200005 rate 0 amount 0 valid 0\nend\n";
    assert_eq!(printout(10, &file), expected);
}

#[test]
fn only_simple_trades_set_the_last_price() {
    let mut file = Writer::new();
    file.quote(200_100, 200_300)
        .trade((1, 2), 2, 250, 200_150)
        .minute_ends(1, 200_000) // no last price, so the middle: 1,000,000
        .trade((1, 2), 1, 1, 200_250)
        .minute_ends(1, 200_000) // 1,000,000
        .trade((1, 2), 0, 1, 200_300)
        .minute_ends(1, 200_000) // 1,500,000
        .trade((1, 2), 1, 1, 200_101)
        .minute_ends(1, 200_000) // 1,500,000
        .trade((1, 2), 2, 250, 200_100)
        .minute_ends(1, 200_000) // 1,500,000
        .trade((1, 2), 0, 1, 200_090)
        .trade((1, 2), 2, 250, 200_250)
        .quote(0, 0)
        .minute_ends(1, 200_000) // 200,090 is outside, so the middle: 1,000,000
        .minute_ends(1_314, 0)
        .fix(200_200); // S = 27,000,000 over 21; −1,285,714 × 200,200 × 10 / 10^11 = −25.74
    let expected = "day 1 price 200200 rate 1285714 amount -26 valid 6\nend\n";
    assert_eq!(printout(10, &file), expected);
}

/// Document 01's example on a short day with trades around its last minute, then a full day.
#[test]
fn a_short_day_goes_by_its_own_last_minute() {
    let mut file = Writer::new();
    file.length_of_day(1_140)
        .quote(200_100, 200_300)
        .minute_ends(1_138, 200_000)
        .trade((3, 3), 0, 1, 200_300)
        .trade((3, 3), 0, 1, 200_200)
        .minute_ends(1, 200_000)
        .trade((3, 7), 0, 12, 200_200)
        .minute_ends(1, 200_000)
        .trade((3, 3), 0, 1, 200_300)
        .fix(0)
        .trade((7, 9), 0, 5, 200_100)
        .close()
        .minute_ends(1_139, 200_400)
        .trade((3, 3), 0, 1, 200_300)
        .minute_ends(1, 200_400)
        .minute_ends(180, 200_500)
        .fix(0); // 200,500 + 200,200 − 200,000
    let expected = "day 1 price 200200 rate 1000000 amount -20 valid 1140\n\
                    acct 3 net 12 cash -24000\n\
                    acct 7 net -7 cash 19000\n\
                    acct 9 net -5 cash 5000\n\
                    day 2 price 200700 rate 0 amount 0 valid 0\n\
                    end\n";
    assert_eq!(printout(10, &file), expected);
    assert_eq!(c_run(10, &file.bytes).0, 1_149 + 1_322);
}

#[test]
fn eight_short_days_fit_the_bench() {
    let mut file = Writer::new();
    for _ in 0..9 {
        file.length_of_day(1_140)
            .minute_ends(1_140, 0)
            .fix(200_000)
            .close();
    }
    let text = printout(1, &file);
    assert!(
        text.contains("day 8 ") && !text.contains("day 9 "),
        "{text}"
    );
}

#[test]
fn halts_and_one_sided_markets() {
    let mut file = Writer::new();
    file.quote(200_000, 200_100)
        .minute_ends(1, 200_000) // valid
        .quote(200_000, 0)
        .minute_ends(1, 200_000) // valid by the minute's market
        .minute_ends(1, 200_000) // one-sided from its start
        .quote(200_000, 200_100)
        .halt()
        .resume()
        .minute_ends(1, 200_000) // the halt removed the market
        .quote(200_000, 200_100)
        .quote(100_000, 200_100)
        .minute_ends(1, 200_000) // too wide
        .quote(200_000, 200_100)
        .halt()
        .minute_ends(1_315, 200_000)
        .fix(200_000)
        .close()
        .quote(200_000, 200_100)
        .resume();
    let expected = "day 1 price 200000 rate 250000 amount 0 valid 2\nrefused 4 record 1332\nend\n";
    assert_eq!(printout(1, &file), expected);
}

#[test]
fn a_timed_quote_is_the_market_of_its_minute_and_the_next() {
    let mut file = Writer::new();
    file.timed_quote(59_999, 200_100, 200_300)
        .minute_ends(1, 200_000) // valid
        .timed_quote(1, 0, 200_300)
        .minute_ends(1, 200_000) // valid by the minute's market
        .minute_ends(1, 200_000) // one-sided from its start
        .timed_quote(1, 200_000, 200_200)
        .minute_ends(1, 200_000) // 500,000
        .halt()
        .minute_ends(1_316, 200_000)
        .fix(200_000); // (1,000,000 × 3 + 500,000 × 3) / 6
    let expected = "day 1 price 200000 rate 750000 amount -15 valid 3\nend\n";
    assert_eq!(printout(10, &file), expected);
}

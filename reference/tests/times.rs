//! The refusals of timed quotes: 5 by their time, and 11.

mod common;

use common::assert_refusals;
use dayformat::Writer;

/// A file of timed quotes of one market at these times.
fn quotes<const N: usize>(file: &mut Writer, times: [u16; N]) -> &mut Writer {
    for time in times {
        file.timed_quote(time, 200_000, 200_010);
    }
    file
}

#[test]
fn refusal_5_comes_with_a_time_above_59_999() {
    let mut file = Writer::new();
    quotes(&mut file, [0, 60_000, 59_999, 60_001, u16::MAX]);
    assert_refusals(&file, &[(5, 2), (5, 4), (5, 5)]);
}

#[test]
fn refusal_11_comes_with_a_time_that_runs_back() {
    let mut file = Writer::new();
    let times = [0, 0, 1, 1, 0, 30_000, 29_999, 30_000, 59_999, 59_998, 0];
    quotes(&mut file, times);
    assert_refusals(&file, &[(11, 5), (11, 7), (11, 10), (11, 11)]);
}

/// "Each minute end and close sets that time to 0", in the first minute and around the last.
#[test]
fn each_minute_has_times_of_its_own() {
    let mut file = Writer::new();
    quotes(&mut file, [500, 499]).minute_ends(1, 0); // 1 to 3
    quotes(&mut file, [0, 400, 399]).minute_ends(1_317, 0); // 4 to 1,323
    quotes(&mut file, [300, 299]).minute_ends(1, 0); // 1,324 to 1,326
    quotes(&mut file, [200, 199]).minute_ends(1, 0); // 1,327 to 1,329
    quotes(&mut file, [100, 99]).fix(0); // 1,330 to 1,332
    quotes(&mut file, [99, 100, 150]).close(); // 1,333 to 1,336
    quotes(&mut file, [50, 49]); // 1,337 and 1,338
    let places = [2, 6, 1_325, 1_328, 1_331, 1_333, 1_338];
    assert_refusals(&file, &places.map(|place| (11, place)));
}

#[test]
fn a_short_day_is_one_minute_after_its_own_last_minute_end() {
    let mut file = Writer::new();
    file.length_of_day(1_140).minute_ends(1_140, 0); // 1 to 1,141
    quotes(&mut file, [30_000])
        .minute_ends(1, 0) // refused: no minute ends
        .fix(200_000);
    quotes(&mut file, [29_999, 30_000]).close();
    quotes(&mut file, [0]);
    assert_refusals(&file, &[(3, 1_143), (11, 1_145)]);
}

#[test]
fn halts_resumes_and_quotes_of_tag_2_leave_the_time() {
    let mut file = Writer::new();
    quotes(&mut file, [30_000])
        .halt()
        .resume()
        .quote(200_000, 200_010)
        .trade((1, 2), 0, 1, 200_000);
    quotes(&mut file, [29_999]).quote(200_000, 200_010); // 6 and 7
    quotes(&mut file, [30_000]);
    assert_refusals(&file, &[(11, 6)]);
}

#[test]
fn refusals_of_a_timed_quote_come_in_the_order_4_5_11_6() {
    let mut file = Writer::new();
    quotes(&mut file, [30_000])
        .timed_quote(60_000, 200_010, 200_000) // 2: 5 before 6
        .timed_quote(20_000, 200_001, 200_010) // 3: 5 before 11
        .timed_quote(20_000, 4_990, 0) // 4
        .timed_quote(20_000, 0, 50_000_010) // 5
        .timed_quote(20_000, 200_010, 200_000) // 6: 11 before 6
        .timed_quote(30_000, 200_010, 200_000) // 7
        .timed_quote(30_000, 200_000, 200_000) // 8
        .timed_quote(30_000, 200_000, 0)
        .timed_quote(30_000, 0, 0)
        .halt()
        .timed_quote(60_000, 200_001, 200_000) // 12: 4 before 5
        .timed_quote(20_000, 0, 0); // 13: 4 before 11
    let expected = [
        (5, 2),
        (5, 3),
        (5, 4),
        (5, 5),
        (11, 6),
        (6, 7),
        (6, 8),
        (4, 12),
        (4, 13),
    ];
    assert_refusals(&file, &expected);
}

#[test]
fn a_refused_timed_quote_gives_no_time() {
    let mut file = Writer::new();
    file.timed_quote(30_000, 200_010, 200_000) // 6
        .timed_quote(29_000, 200_001, 200_010) // 5
        .timed_quote(60_000, 200_000, 200_010) // 5
        .halt()
        .timed_quote(28_000, 200_000, 200_010) // 4
        .resume();
    quotes(&mut file, [10, 9, 10]);
    assert_refusals(&file, &[(6, 1), (5, 2), (5, 3), (4, 5), (11, 8)]);
}

#[test]
fn a_timed_quote_begins_the_date() {
    let mut file = Writer::new();
    file.timed_quote(60_000, 0, 0)
        .timed_quote(0, 200_000, 200_000)
        .length_of_day(1_140) // refused quotes begin nothing
        .minute_ends(1_140, 0)
        .fix(200_000)
        .close() // 1,145
        .timed_quote(0, 0, 0)
        .length_of_day(1_140);
    assert_refusals(&file, &[(5, 1), (6, 2), (3, 1_147)]);
}

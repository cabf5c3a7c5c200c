//! Each refusal that a file can meet, at and beyond its limit, and the checking order.

mod common;

use common::assert_refusals;
use dayformat::Writer;

#[test]
fn refusal_3_comes_with_the_state_of_the_day() {
    let mut file = Writer::new();
    file.fix(0)
        .close()
        .minute_ends(1_319, 200_000)
        .fix(200_000) // 1,322
        .minute_ends(2, 200_000) // 1,323 and 1,324
        .close()
        .fix(200_000)
        .fix(200_000)
        .minute_ends(1, 4_999)
        .close()
        .close();
    let expected = [
        (3, 1),
        (3, 2),
        (3, 1_322),
        (3, 1_324),
        (3, 1_325),
        (3, 1_327),
        (3, 1_328),
        (3, 1_330),
    ];
    assert_refusals(&file, &expected);
}

#[test]
fn refusal_3_goes_by_the_length_of_day() {
    let mut file = Writer::new();
    file.length_of_day(1_140)
        .minute_ends(1_139, 200_000) // 2 to 1,140
        .fix(200_000) // 1,141
        .minute_ends(2, 200_000) // 1,142 and 1,143
        .fix(200_000)
        .minute_ends(1, 200_000) // 1,145
        .close()
        .minute_ends(1_140, 200_000) // 1,147 to 2,286
        .fix(200_000) // 2,287
        .minute_ends(179, 200_000) // 2,288 to 2,466
        .fix(200_000) // 2,467
        .minute_ends(2, 200_000) // 2,468 and 2,469
        .fix(200_000);
    let expected = [1_141, 1_143, 1_145, 2_287, 2_467, 2_469].map(|place| (3, place));
    assert_refusals(&file, &expected);
}

#[test]
fn a_length_of_day_is_refused_by_5_for_its_value() {
    let mut file = Writer::new();
    for minutes in [0, 1_139, 1_141, 1_319, 1_321, u16::MAX, 1_140] {
        file.length_of_day(minutes);
    }
    let expected: Vec<_> = (1..=6).map(|place| (5, place)).collect();
    assert_refusals(&file, &expected);
}

/// Whatever its value, and whatever that of the first is.
#[test]
fn a_second_length_of_day_is_refused_by_3() {
    for first in [1_140, 1_320] {
        for second in [1_140, 1_320, 1_141] {
            let mut file = Writer::new();
            file.length_of_day(first).length_of_day(second);
            assert_refusals(&file, &[(3, 2)]);
        }
    }
}

#[test]
fn a_length_of_day_after_a_call_that_begins_the_date_is_refused_by_3() {
    let begins: [fn(&mut Writer) -> &mut Writer; 5] = [
        |file| file.quote(0, 0),
        |file| file.trade((1, 1), 1, 1, 5_000),
        |file| file.two_byte_trade((1, 1), 1, 1, 5_000),
        |file| file.halt(),
        |file| file.minute_ends(1, 0),
    ];
    for begin in begins {
        let mut file = Writer::new();
        begin(&mut file).length_of_day(1_140).length_of_day(1_141);
        assert_refusals(&file, &[(3, 2), (3, 3)]);
    }
}

#[test]
fn records_that_are_not_accepted_begin_no_date() {
    let mut file = Writer::new();
    file.length_of_day(1_141)
        .quote(200_000, 200_000)
        .trade((1, 2), 0, 0, 5_000)
        .minute_ends(1, 4_999)
        .resume()
        .fix(5_000)
        .close()
        .record(8, &[4, 116, 0])
        .record(3, &[])
        .record(200, &[])
        .length_of_day(1_140) // 11
        .length_of_day(1_140);
    let refused = [5, 6, 5, 5, 4, 3, 3, 1, 1].into_iter().zip(1..);
    let expected: Vec<_> = refused.chain([(3, 12)]).collect();
    assert_refusals(&file, &expected);
}

/// "A halt carries over": neither it nor a call that it refuses begins the next date, its resume does.
#[test]
fn a_carried_halt_leaves_the_length_of_day_open_until_its_resume() {
    let mut file = Writer::new();
    file.halt()
        .minute_ends(1_320, 0)
        .fix(200_000)
        .close() // 1,323
        .halt()
        .quote(0, 0)
        .length_of_day(1_140) // 1,326
        .minute_ends(1_140, 0)
        .fix(200_000)
        .close() // 2,468
        .resume()
        .length_of_day(1_140); // 2,470
    assert_refusals(&file, &[(4, 1_324), (4, 1_325), (3, 2_470)]);
}

#[test]
fn refusal_4_comes_with_a_halt() {
    let mut file = Writer::new();
    file.resume()
        .halt()
        .halt()
        .quote(1, 1)
        .trade((1, 2), 9, 0, 0)
        .minute_ends(1, 0)
        .minute_ends(1, 1)
        .resume()
        .resume();
    assert_refusals(&file, &[(4, 1), (4, 3), (4, 4), (4, 5), (5, 7), (4, 9)]);
}

#[test]
fn refusal_5_comes_with_a_trade_outside_its_fields() {
    let mut file = Writer::new();
    for (kind, quantity, price) in [
        (0, 1, 5_000),
        (0, 100_000, 50_000_000),
        (1, 1, 5_001),
        (2, 250, 49_999_999),
        (3, 250, 5_000),
        (0, 0, 5_000),
        (0, 100_001, 5_000),
        (2, 249, 5_000),
        (0, 1, 4_990),
        (1, 1, 4_999),
        (1, 1, 50_000_001),
        (0, 1, 5_001),
    ] {
        file.trade((1, 2), kind, quantity, price);
    }
    let expected: Vec<_> = (5..=12).map(|place| (5, place)).collect();
    assert_refusals(&file, &expected);
}

#[test]
fn refusals_5_and_6_come_with_a_quote() {
    let mut file = Writer::new();
    file.quote(5_000, 50_000_000)
        .quote(0, 0)
        .quote(0, 5_000)
        .quote(50_000_000, 0)
        .quote(4_990, 0)
        .quote(0, 50_000_010)
        .quote(5_005, 5_000)
        .quote(5_010, 5_000)
        .quote(5_000, 5_000)
        .quote(5_000, 5_010);
    assert_refusals(&file, &[(5, 5), (5, 6), (5, 7), (6, 8), (6, 9)]);
}

#[test]
fn refusal_5_comes_with_an_index_that_is_no_price() {
    let mut file = Writer::new();
    for index in [0, 5_000, 5_001, 50_000_000, 1, 4_999, 50_000_001, u32::MAX] {
        file.minute_ends(1, index);
    }
    assert_refusals(&file, &[(5, 5), (5, 6), (5, 7), (5, 8)]);
}

#[test]
fn refusals_7_and_8_come_at_the_limits() {
    let mut file = Writer::new();
    for _ in 0..12 {
        file.trade((1, 2), 0, 100_000, 5_000); // positions at ±1,200,000
    }
    file.trade((1, 3), 0, 1, 5_000) // 13: buyer past its position
        .trade((3, 2), 0, 1, 5_000) // 14: seller past its position
        .trade((1, 1), 0, 100_000, 5_000); // 15: v moves by 200,000, the position doesn't
    for _ in 0..10 {
        file.trade((4, 4), 0, 100_000, 5_000); // 16 to 25: v at 2,000,000
    }
    file.trade((4, 4), 0, 1, 5_000) // 26
        .trade((1, 4), 0, 1, 5_000) // 27: buyer past 8, seller past 7
        .trade((4, 2), 0, 1, 5_000); // 28: seller past 8, buyer past 7
    assert_refusals(&file, &[(8, 13), (8, 14), (7, 26), (7, 27), (7, 28)]);
}

#[test]
fn a_close_frees_the_volume_and_keeps_the_position() {
    let mut file = Writer::new();
    for _ in 0..12 {
        file.trade((1, 2), 0, 100_000, 5_000);
    }
    file.minute_ends(1_320, 0).fix(5_000).close();
    file.trade((1, 3), 0, 1, 5_000); // 1,335
    for _ in 0..20 {
        file.trade((2, 1), 0, 100_000, 5_000); // 1,336 to 1,355
    }
    file.trade((2, 1), 0, 1, 5_000); // 1,356: v
    assert_refusals(&file, &[(8, 1_335), (7, 1_356)]);
}

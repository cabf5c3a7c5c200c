//! Each error message, with its line.

fn errors(text: &str) -> Vec<String> {
    let errors = daytext::encode(text).expect_err(text);
    errors.iter().map(ToString::to_string).collect()
}

/// Checks that a line, put third, gives one error.
#[track_caller]
fn check(line: &str, expected: &str) {
    let text = format!("size 10\n# comment\n{line}\nclose\n");
    assert_eq!(errors(&text), [format!("line 3: {expected}")]);
}

#[test]
fn first_words() {
    check(
        "qoute 200100 200300",
        "\"qoute\" begins no line; expected size, length, final, quote, trade, \
         minute, halt, resume, fix, hourly, close, record or bytes",
    );
}

/// What a value of each field is expected to be.
const BYTE: &str = "expected a number from 0 to 255";
const KIND: &str = "expected a number from 0 to 255, or simple, spread or block";
const TWO_BYTES: &str = "expected a number from 0 to 65535";
const NUMBER: &str = "expected a number from 0 to 4294967295";
const NUMBER_OR_NONE: &str = "expected a number from 0 to 4294967295, or - for none";
const COUNT: &str = "expected a number from 1 to 1000000";
const HEXADECIMAL: &str = "expected two hexadecimal digits for each";

#[test]
fn missing_values() {
    for (line, name, expected) in [
        ("length", "length of day", TWO_BYTES),
        ("final", "year", TWO_BYTES),
        ("final 2035", "month", BYTE),
        ("hourly", "hourly index value", NUMBER),
        ("quote", "bid", NUMBER_OR_NONE),
        ("quote 200100", "offer", NUMBER_OR_NONE),
        ("quote 1 2 after", "time in milliseconds", TWO_BYTES),
        ("minute", "index", NUMBER_OR_NONE),
        ("trade", "buyer", TWO_BYTES),
        ("trade 3", "seller", TWO_BYTES),
        ("trade 3 7", "kind", KIND),
        ("trade 3 7 simple", "quantity", NUMBER),
        ("trade 3 7 simple 12 at", "price", NUMBER),
        ("record", "tag", BYTE),
        ("halt times", "count after times", COUNT),
    ] {
        check(line, &format!("the {name} is missing; {expected}"));
    }
    check(
        "trade 3 7 simple 12",
        "the price is missing; expected the word at and the price",
    );
    check("bytes", "the bytes are missing; expected hexadecimal bytes");
}

#[test]
fn wrong_numbers() {
    for (line, found, expected) in [
        ("length 65536", "length of day is \"65536\"", TWO_BYTES),
        ("length -", "length of day is \"-\"", TWO_BYTES),
        ("quote 200100 x", "offer is \"x\"", NUMBER_OR_NONE),
        ("quote 2001,00 0", "bid is \"2001,00\"", NUMBER_OR_NONE),
        (
            "minute 4294967296",
            "index is \"4294967296\"",
            NUMBER_OR_NONE,
        ),
        ("minute times 3", "index is \"times\"", NUMBER_OR_NONE),
        ("fix none", "set price is \"none\"", NUMBER_OR_NONE),
        ("trade 65536 7", "buyer is \"65536\"", TWO_BYTES),
        ("trade 3 65,536", "seller is \"65,536\"", TWO_BYTES),
        ("trade 3 -7", "seller is \"-7\"", TWO_BYTES),
        ("trade 3 7 swap 12 at 5000", "kind is \"swap\"", KIND),
        (
            "trade 3 7 simple 1.5 at 5000",
            "quantity is \"1.5\"",
            NUMBER,
        ),
        ("trade 3 7 simple 12 at -", "price is \"-\"", NUMBER),
        ("record 300", "tag is \"300\"", BYTE),
        ("halt times 0", "count after times is \"0\"", COUNT),
        (
            "halt times 1000001",
            "count after times is \"1000001\"",
            COUNT,
        ),
    ] {
        check(line, &format!("the {found}; {expected}"));
    }
}

#[test]
fn wrong_final_dates() {
    for (line, found, expected) in [
        ("final 65,536 10", "year is \"65,536\"", TWO_BYTES),
        ("final October 2035", "year is \"October\"", TWO_BYTES),
        ("final 2035 256", "month is \"256\"", BYTE),
        ("final 2035 -", "month is \"-\"", BYTE),
        ("final 2035 times 2", "month is \"times\"", BYTE),
    ] {
        check(line, &format!("the {found}; {expected}"));
    }
    for value in ["4294967296", "-", "200005.0", "times"] {
        let found = format!("the hourly index value is \"{value}\"; {NUMBER}");
        check(&format!("hourly {value}"), &found);
    }
}

#[test]
fn wrong_times() {
    check(
        "quote 1 after 5",
        &format!("the offer is \"after\"; {NUMBER_OR_NONE}"),
    );
    for time in ["65,536", "-", "times 2"] {
        let word = time.split(' ').next().expect("a word");
        let found = format!("the time in milliseconds is \"{word}\"; {TWO_BYTES}");
        check(&format!("quote 1 2 after {time}"), &found);
    }
}

#[test]
fn wrong_tags_of_trades() {
    for (tag, expected) in [
        ("as", "the tag after as is missing; expected tag 10"),
        ("as tag", "the tag after as is missing; expected tag 10"),
        ("as 10", "\"10\" after as; expected tag 10"),
        ("as times 2", "\"times\" after as; expected tag 10"),
        ("as tag 1", "the tag is \"1\"; expected 10, or no tag"),
        (
            "as tag times 2",
            "the tag is \"times\"; expected 10, or no tag",
        ),
    ] {
        check(&format!("trade 3 7 simple 12 at 200200 {tag}"), expected);
        check(&format!("trade 3 256 block 12 at 200200 {tag}"), expected);
    }
}

#[test]
fn wrong_words() {
    check(
        "trade 3 7 simple 12 200200",
        "\"200200\" before the price; expected the word at",
    );
    check("record 200 0", &format!("\"0\" is no bytes; {HEXADECIMAL}"));
    check("bytes 0g", &format!("\"0g\" is no bytes; {HEXADECIMAL}"));
}

/// Checks that a word of a line is too much, and what could stand in its place.
#[track_caller]
fn check_too_much(line: &str, word: &str, others: &str) {
    let expected = format!("expected the end of the line{others}");
    check(line, &format!("\"{word}\" is too much; {expected}"));
}

#[test]
fn words_too_much() {
    let after = ", after and milliseconds, or times and a number";
    check_too_much("quote 1 2 at 30000", "at", after);
    let times = ", or times and a number";
    check_too_much("quote 1 2 after 30000 ms", "ms", times);
    check_too_much("length 1140 1320", "1320", times);
    check_too_much("final 2035 10 26", "26", times);
    check_too_much("final 2035 10 times 1 26", "26", "");
    check_too_much("hourly 200005 200015", "200015", times);
    check_too_much("halt now", "now", times);
    check_too_much("halt times 1 now", "now", "");
    check_too_much("halt times 2 times 2", "times", "");
    check_too_much("quote 1 2 times 2 after 30000", "after", "");
    check_too_much("bytes 00 times 2\n#", "times", "");
}

#[test]
fn words_too_much_of_trades() {
    for accounts in ["3 7", "3 256"] {
        let trade = format!("trade {accounts} simple 12 at 200200");
        let tag = ", as tag 10, or times and a number";
        check_too_much(&format!("{trade} tag 10"), "tag", tag);
        check_too_much(&format!("{trade} 1"), "1", tag);
        let times = ", or times and a number";
        check_too_much(&format!("{trade} as tag 10 as tag 10"), "as", times);
        check_too_much(&format!("{trade} times 1 as tag 10"), "as", "");
    }
}

#[test]
fn bodies_too_long() {
    let longest = "00".repeat(65_535);
    assert!(daytext::encode(&format!("size 1\nrecord 200 {longest}")).is_ok());
    check(
        &format!("record 200 {longest} 00"),
        "the body has 65536 bytes; expected at most 65535",
    );
}

#[test]
fn order_of_lines() {
    let no_size = "the text ends without a size; expected size and a number, or size missing";
    let late_size = "no size before this line; expected size first";
    let after_missing = "a line after size missing; expected none";
    for (text, line, expected) in [
        ("", 1, no_size),
        ("# a\n\n# b\n", 3, no_size),
        ("\nquote 0 0\nhalt\n", 2, late_size),
        (
            "size 1\nhalt\nsize 1\nhalt\n",
            3,
            "a second size; expected only one",
        ),
        ("size missing\nhalt\nhalt\n", 2, after_missing),
        (
            "size 1\nbytes 00\nhalt\nhalt\n",
            3,
            "a line after bytes; expected none",
        ),
    ] {
        assert_eq!(errors(text), [format!("line {line}: {expected}")]);
    }
}

#[test]
fn wrong_sizes() {
    let size = "expected a number from 0 to 255, or missing";
    for (text, expected) in [
        ("size\n", format!("the size is missing; {size}")),
        ("size 256\nhalt\n", format!("the size is \"256\"; {size}")),
        (
            "size 1 0\n",
            "\"0\" is too much; expected the end of the line".to_string(),
        ),
    ] {
        assert_eq!(errors(text), [format!("line 1: {expected}")]);
    }
}

#[test]
fn every_error_is_reported() {
    let text = "minit 3\nsize 10\nquote 1\nhalt\nclose x\nbytes 0\nresume 1\n";
    let lines: Vec<usize> = daytext::encode(text)
        .expect_err(text)
        .iter()
        .map(|error| error.line)
        .collect();
    assert_eq!(lines, [1, 1, 3, 5, 6, 7]);
}

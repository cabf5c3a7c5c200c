//! Each form of a line and its bytes.

#[track_caller]
fn check(lines: &str, expected: &[u8]) {
    let text = format!("size 1\n{lines}\n");
    let bytes = [&[1], expected].concat();
    assert_eq!(daytext::encode(&text), Ok(bytes), "{lines}");
}

#[test]
fn calls() {
    check("quote - 200300", &[2, 0, 8, 0, 0, 0, 0, 0, 3, 14, 108]);
    check("quote 5000 0", &[2, 0, 8, 0, 0, 19, 136, 0, 0, 0, 0]);
    check("minute -", &[3, 0, 4, 0, 0, 0, 0]);
    check("minute 0", &[3, 0, 4, 0, 0, 0, 0]);
    check("halt", &[4, 0, 0]);
    check("resume", &[5, 0, 0]);
    check("fix", &[6, 0, 4, 0, 0, 0, 0]);
    check("fix -", &[6, 0, 4, 0, 0, 0, 0]);
    check("fix 200150", &[6, 0, 4, 0, 3, 13, 214]);
    check("close", &[7, 0, 0]);
    check("length 1140", &[8, 0, 2, 4, 116]);
    check("length 1,320", &[8, 0, 2, 5, 40]);
    check("length 0", &[8, 0, 2, 0, 0]);
    check("length 65535", &[8, 0, 2, 255, 255]);
}

#[test]
fn final_dates() {
    check("final 2035 10", &[11, 0, 3, 7, 243, 10]);
    check("final 2,026\t12 times 2", &[11, 0, 3, 7, 234, 12].repeat(2));
    check("final 0 0", &[11, 0, 3, 0, 0, 0]);
    check("final 65_535 255", &[11, 0, 3, 255, 255, 255]);
    check("hourly 200,005", &[12, 0, 4, 0, 3, 13, 69]);
    check("hourly 0 times 2", &[12, 0, 4, 0, 0, 0, 0].repeat(2));
    check("hourly 4_294_967_295", &[12, 0, 4, 255, 255, 255, 255]);
}

#[test]
fn timed_quotes() {
    let sides = [0, 3, 13, 164, 0, 3, 14, 108];
    for (milliseconds, high, low) in [
        ("0", 0, 0),
        ("12500", 48, 212),
        ("12,500", 48, 212),
        ("59999", 234, 95),
        ("60_000", 234, 96),
        ("65535", 255, 255),
    ] {
        let line = format!("quote 200,100 200300 after {milliseconds}");
        check(&line, &[&[9, 0, 10, high, low], &sides[..]].concat());
    }
    check(
        "quote - 5000 after 1",
        &[9, 0, 10, 0, 1, 0, 0, 0, 0, 0, 0, 19, 136],
    );
    check(
        "quote 5000 0 after 2 times 2",
        &[9, 0, 10, 0, 2, 0, 0, 19, 136, 0, 0, 0, 0].repeat(2),
    );
}

#[test]
fn damaged_records() {
    check("record 200", &[200, 0, 0]);
    check("record 9", &[9, 0, 0]);
    check("record 10 03 FF", &[10, 0, 2, 3, 255]);
    check("record 3 01 02FF", &[3, 0, 3, 1, 2, 255]);
    check("record 255 00 times 2", &[255, 0, 1, 0, 255, 0, 1, 0]);
    check("record 8 04", &[8, 0, 1, 4]);
    check("bytes 02 00", &[2, 0]);
}

#[test]
fn comments_blank_lines_and_line_ends() {
    check("# nothing", &[]);
    check("\n  \t\nhalt#at once\n\n\tresume", &[4, 0, 0, 5, 0, 0]);
    check("halt\r\nclose\r", &[4, 0, 0, 7, 0, 0]);
    let marked = "\u{feff}size 1\nhalt";
    assert_eq!(daytext::encode(marked), Ok(vec![1, 4, 0, 0]));
}

#[test]
fn repeated_lines() {
    check("halt times 3", &[4, 0, 0, 4, 0, 0, 4, 0, 0]);
    check("fix times 1", &[6, 0, 4, 0, 0, 0, 0]);
    check(
        "minute 4_294_967_295 times 0_001",
        &[3, 0, 4, 255, 255, 255, 255],
    );
}

#[test]
fn sizes() {
    assert_eq!(daytext::encode("size missing"), Ok(vec![]));
    assert_eq!(daytext::encode("size 0"), Ok(vec![0]));
    assert_eq!(daytext::decode(&[]), "size missing\n");
    assert_eq!(daytext::decode(&[255]), "size 255\n");
}

#[test]
fn lengths_of_day_whole_and_damaged() {
    let bytes = [
        1, 8, 0, 2, 4, 116, 8, 0, 2, 255, 255, 8, 0, 1, 4, 8, 0, 2, 4,
    ];
    let expected = "\
size 1
length 1140                              # record 1
length 65535                             # record 2
record 8 04                              # record 3
bytes 08 00 02 04                        # record 4
";
    assert_eq!(daytext::decode(&bytes), expected);
}

#[test]
fn timed_quotes_whole_and_damaged() {
    let bytes = [
        &[1][..],
        &[9, 0, 10, 48, 212, 0, 3, 13, 164, 0, 3, 14, 108],
        &[9, 0, 10, 255, 255, 0, 0, 0, 0, 0, 0, 0, 1],
        &[9, 0, 8, 0, 3, 13, 164, 0, 3, 14, 108],
        &[9, 0, 10, 48, 212],
    ];
    let expected = "\
size 1
quote 200100 200300 after 12500          # record 1
quote - 1 after 65535                    # record 2
record 9 00 03 0d a4 00 03 0e 6c         # record 3
bytes 09 00 0a 30 d4                     # record 4
";
    assert_eq!(daytext::decode(&bytes.concat()), expected);
}

#[test]
fn final_dates_whole_and_damaged() {
    let bytes = [
        &[1][..],
        &[11, 0, 3, 7, 243, 10],
        &[12, 0, 4, 0, 3, 13, 69],
        &[12, 0, 4, 0, 0, 0, 0],
        &[11, 0, 3, 255, 255, 0],
        &[11, 0, 2, 7, 243],
        &[11, 0, 4, 0, 3, 13, 69],
        &[12, 0, 3, 7, 243, 10],
        &[12, 0, 0],
        &[11, 0, 3, 7, 243],
    ];
    let expected = "\
size 1
final 2035 10                            # record 1
hourly 200005                            # record 2
hourly 0                                 # record 3
final 65535 0                            # record 4
record 11 07 f3                          # record 5
record 11 00 03 0d 45                    # record 6
record 12 07 f3 0a                       # record 7
record 12                                # record 8
bytes 0b 00 03 07 f3                     # record 9
";
    assert_eq!(daytext::decode(&bytes.concat()), expected);
}

/// A body of ten bytes is the timed quote that it spells, and likewise of other tags.
#[test]
fn a_record_line_with_a_whole_body_is_its_call() {
    let text = "size 1\nrecord 9 30d4 00030da4 00030e6c\nrecord 2 0000 0000 0000 0000\n\
                record 11 07f3 0a\nrecord 12 00030d45\n";
    let expected = "\
size 1
quote 200100 200300 after 12500          # record 1
quote - -                                # record 2
final 2035 10                            # record 3
hourly 200005                            # record 4
";
    let bytes = daytext::encode(text).unwrap();
    assert_eq!(daytext::decode(&bytes), expected);
}

#[test]
fn only_minute_ends_are_folded() {
    let text = "size 1\nhalt times 2\nminute - times 3\nminute 9\nbytes 03\n";
    let expected = "\
size 1
halt                                     # record 1
halt                                     # record 2
minute - times 3                         # records 3 to 5
minute 9                                 # record 6
bytes 03                                 # record 7
";
    let bytes = daytext::encode(text).unwrap();
    assert_eq!(daytext::decode(&bytes), expected);
}

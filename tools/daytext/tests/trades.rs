//! The text of a trade: its accounts, and the tag that it has by them or by its line.

#[track_caller]
fn check(line: &str, expected: &[u8]) {
    let text = format!("size 1\n{line}\n");
    let bytes = [&[1], expected].concat();
    assert_eq!(daytext::encode(&text), Ok(bytes), "{line}");
}

/// A trade of kind 1, of 2 contracts at 3, with tag 10.
fn two_byte_trade(buyer: u16, seller: u16) -> Vec<u8> {
    let mut bytes = vec![10, 0, 13];
    bytes.extend([buyer.to_be_bytes(), seller.to_be_bytes()].concat());
    bytes.extend([1, 0, 0, 0, 2, 0, 0, 0, 3]);
    bytes
}

#[test]
fn kinds() {
    for (word, kind) in [
        ("simple", 0),
        ("spread", 1),
        ("block", 2),
        ("1", 1),
        ("255", 255),
    ] {
        let line = format!("trade 0 255 {word} 1 at 2");
        let bytes = [1, 0, 11, 0, 255, kind, 0, 0, 0, 1, 0, 0, 0, 2];
        check(&line, &bytes);
    }
}

#[test]
fn accounts_up_to_255_are_tag_1() {
    for (text, account) in [("0", 0), ("00255", 255), ("254", 254)] {
        let line = format!("trade {text} 3 spread 2 at 3");
        check(&line, &[1, 0, 11, account, 3, 1, 0, 0, 0, 2, 0, 0, 0, 3]);
        let line = format!("trade 3 {text} spread 2 at 3");
        check(&line, &[1, 0, 11, 3, account, 1, 0, 0, 0, 2, 0, 0, 0, 3]);
    }
}

#[test]
fn one_above_255_is_tag_10() {
    for (text, account) in [
        ("256", 256),
        ("1,023", 1_023),
        ("1_024", 1_024),
        ("65535", 65_535),
    ] {
        for tag in ["", " as tag 10"] {
            let line = |accounts: [&str; 2]| {
                let [buyer, seller] = accounts;
                format!("trade {buyer} {seller} spread 2 at 3{tag}")
            };
            check(&line([text, "255"]), &two_byte_trade(account, 255));
            check(&line(["255", text]), &two_byte_trade(255, account));
            check(&line([text, text]), &two_byte_trade(account, account));
        }
    }
}

#[test]
fn a_line_may_ask_for_tag_10() {
    check("trade 0 255 1 2 at 3 as tag 10", &two_byte_trade(0, 255));
    check(
        "trade 255\t7 spread 2 at 3  as\ttag 10#",
        &two_byte_trade(255, 7),
    );
}

#[test]
fn trades_are_repeated() {
    let one_byte = [1, 0, 11, 3, 7, 1, 0, 0, 0, 2, 0, 0, 0, 3];
    check("trade 3 7 spread 2 at 3 times 3", &one_byte.repeat(3));
    let two_byte = two_byte_trade(3, 7).repeat(2);
    check("trade 3 7 spread 2 at 3 as tag 10 times 2", &two_byte);
    let two_byte = two_byte_trade(3, 1_023).repeat(2);
    check("trade 3 1,023 spread 2 at 3 times 2", &two_byte);
}

#[test]
fn the_text_says_tag_10_of_accounts_up_to_255() {
    let bytes = [
        vec![1],
        two_byte_trade(3, 7),
        two_byte_trade(0, 255),
        two_byte_trade(0, 256),
        two_byte_trade(1_023, 1_024),
        two_byte_trade(65_535, 0),
        vec![1, 0, 11, 3, 255, 1, 0, 0, 0, 2, 0, 0, 0, 3],
    ];
    let expected = "\
size 1
trade 3 7 spread 2 at 3 as tag 10        # record 1
trade 0 255 spread 2 at 3 as tag 10      # record 2
trade 0 256 spread 2 at 3                # record 3
trade 1023 1024 spread 2 at 3            # record 4
trade 65535 0 spread 2 at 3              # record 5
trade 3 255 spread 2 at 3                # record 6
";
    assert_eq!(daytext::decode(&bytes.concat()), expected);
}

/// A body of another length has bytes for a text, and a cut-off one too.
#[test]
fn damaged_trades() {
    let one_byte_length = [10, 0, 11, 3, 7, 1, 0, 0, 0, 2, 0, 0, 0, 3];
    let mut two_byte_length = vec![1];
    two_byte_length.extend(&two_byte_trade(3, 7)[1..]);
    let cut_off = &two_byte_trade(3, 1_023)[..8];
    let bytes = [&[1], &one_byte_length[..], &two_byte_length, cut_off].concat();
    let expected = "\
size 1
record 10 03 07 01 00 00 00 02 00 00 00 03 # record 1
record 1 00 03 00 07 01 00 00 00 02 00 00 00 03 # record 2
bytes 0a 00 0d 00 03 03 ff 01            # record 3
";
    assert_eq!(daytext::decode(&bytes), expected);
    assert_eq!(daytext::encode(expected), Ok(bytes));
}

/// A body of thirteen bytes is the trade that it spells.
#[test]
fn a_record_line_with_a_whole_body_is_its_trade() {
    check(
        "record 10 0003 03ff 01 00000002 00000003",
        &two_byte_trade(3, 1_023),
    );
    let text = "size 1\nrecord 10 0003 0007 01 00000002 00000003\n";
    let expected = "\
size 1
trade 3 7 spread 2 at 3 as tag 10        # record 1
";
    let bytes = daytext::encode(text).unwrap();
    assert_eq!(daytext::decode(&bytes), expected);
}

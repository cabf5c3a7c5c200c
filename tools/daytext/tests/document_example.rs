//! The example of document 01, byte by byte.

const TEXT: &str = "\
size 10
quote 200100 200300
minute 200000 times 1319
trade 3 7 simple 12 at 200200     # buyer 3, seller 7
minute 200000
fix
trade 7 9 simple 5 at 200100
close
";

fn bytes() -> Vec<u8> {
    let minute_end = [3, 0, 4, 0, 0x03, 0x0d, 0x40];
    let mut bytes = vec![10];
    bytes.extend([2, 0, 8, 0, 0x03, 0x0d, 0xa4, 0, 0x03, 0x0e, 0x6c]);
    bytes.extend(minute_end.repeat(1319));
    bytes.extend([1, 0, 11, 3, 7, 0, 0, 0, 0, 12, 0, 0x03, 0x0e, 0x08]);
    bytes.extend(minute_end);
    bytes.extend([6, 0, 4, 0, 0, 0, 0]);
    bytes.extend([1, 0, 11, 7, 9, 0, 0, 0, 0, 5, 0, 0x03, 0x0d, 0xa4]);
    bytes.extend([7, 0, 0]);
    bytes
}

#[test]
fn encodes() {
    assert_eq!(daytext::encode(TEXT), Ok(bytes()));
}

#[test]
fn decodes_with_places() {
    let expected = "\
size 10
quote 200100 200300                      # record 1
minute 200000 times 1319                 # records 2 to 1320
trade 3 7 simple 12 at 200200            # record 1321
minute 200000                            # record 1322
fix                                      # record 1323
trade 7 9 simple 5 at 200100             # record 1324
close                                    # record 1325
";
    assert_eq!(daytext::decode(&bytes()), expected);
}

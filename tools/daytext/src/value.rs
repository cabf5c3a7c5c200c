//! Numbers and bytes as words of the text.

/// A whole number, with `,` or `_` between groups of three digits if any.
///
/// Groups must be whole, so that a slip such as `2001,00` is found.
pub fn number(word: &str) -> Option<u32> {
    let mut groups = word.split([',', '_']);
    let first = groups.next()?;
    let rest: Vec<&str> = groups.collect();
    let grouped = rest.is_empty() || first.len() <= 3 && rest.iter().all(|g| g.len() == 3);
    let digits = [first, &rest.concat()].concat();
    let plain = !first.is_empty() && digits.bytes().all(|b| b.is_ascii_digit());
    if grouped && plain {
        digits.parse().ok()
    } else {
        None
    }
}

/// Bytes of two hexadecimal digits each, with nothing between them.
pub fn bytes(word: &str) -> Option<Vec<u8>> {
    if !word.len().is_multiple_of(2) {
        return None;
    }
    word.as_bytes()
        .chunks(2)
        .map(|pair| Some(digit(pair[0])? << 4 | digit(pair[1])?))
        .collect()
}

fn digit(character: u8) -> Option<u8> {
    let value = char::from(character).to_digit(16)?;
    u8::try_from(value).ok()
}

#[cfg(test)]
mod tests {
    use super::{bytes, number};

    #[test]
    fn numbers_with_and_without_separators() {
        for word in ["1234567", "1,234,567", "1_234_567", "0001234567"] {
            assert_eq!(number(word), Some(1_234_567), "{word}");
        }
        assert_eq!(number("0"), Some(0));
        assert_eq!(number("4,294,967,295"), Some(u32::MAX));
    }

    #[test]
    fn words_that_are_no_numbers() {
        let words = [
            "",
            "-",
            "-1",
            "+1",
            "1.5",
            "x",
            "0x10",
            "4294967296",
            ",123",
            "1,",
            "1,,234",
            "2001,00",
            "1234,567",
            "1,2345",
            "１",
        ];
        for word in words {
            assert_eq!(number(word), None, "{word}");
        }
    }

    #[test]
    fn hexadecimal_bytes() {
        assert_eq!(bytes("00fFA9"), Some(vec![0, 255, 169]));
        for word in ["0", "0g", "+1", "é0"] {
            assert_eq!(bytes(word), None, "{word}");
        }
    }
}

//! Sets of trades, for tests. 02-6: "a set has no file record", so the input of `set_bench` has one
//! record more than a day file.

use crate::{header, length, Writer};

/// Unknown in a day file. The body is any number of bodies of tag 10.
pub const TAG: u8 = 250;

/// The bytes of each trade in the body.
pub const TRADE: usize = length::TWO_BYTE_TRADE as usize;

impl Writer {
    /// A set of the trades in a file of records of tag 10.
    pub fn set(&mut self, trades: &Writer) -> &mut Self {
        let mut body = Vec::new();
        let mut rest = &trades.bytes[..];
        while let Some((_, length, after)) = header(rest) {
            body.extend(&after[..length]);
            rest = &after[length..];
        }
        self.record(TAG, &body)
    }
}

#[cfg(test)]
mod tests {
    use super::*;
    use crate::tag;

    #[test]
    fn the_tag_is_unknown_in_a_day_file() {
        assert!(!tag::KNOWN.contains(&TAG));
    }

    #[test]
    fn the_body_is_those_of_the_trades() {
        let (mut trades, mut file) = (Writer::new(), Writer::new());
        trades
            .two_byte_trade((3, 1_023), 0, 12, 200_200)
            .two_byte_trade((7, 7), 2, 250, 5_001);
        file.set(&trades).set(&Writer::new());
        let (first, second) = trades.bytes.split_at(3 + TRADE);
        let body = [&first[3..], &second[3..]].concat();
        let expected = [&[250, 0, 26], &body[..], &[250, 0, 0]].concat();
        assert_eq!(file.bytes, expected);
    }
}

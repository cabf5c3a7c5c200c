//! The records of a day file: "A file record is a one-byte tag, a two-byte length, a body, high byte
//! first." Every Rust package takes tags, lengths and kinds from here.

pub mod set;
mod writer;

pub use writer::Writer;

/// "Other tags are unknown."
pub mod tag {
    pub const TRADE: u8 = 1;
    pub const QUOTE: u8 = 2;
    pub const MINUTE_END: u8 = 3;
    pub const HALT: u8 = 4;
    pub const RESUME: u8 = 5;
    pub const FIX: u8 = 6;
    pub const CLOSE: u8 = 7;
    pub const LENGTH_OF_DAY: u8 = 8;
    pub const TIMED_QUOTE: u8 = 9;
    pub const TWO_BYTE_TRADE: u8 = 10;
    pub const FINAL_DATE: u8 = 11;
    pub const FINAL_FIX: u8 = 12;

    pub const KNOWN: [u8; 12] = [
        TRADE,
        QUOTE,
        MINUTE_END,
        HALT,
        RESUME,
        FIX,
        CLOSE,
        LENGTH_OF_DAY,
        TIMED_QUOTE,
        TWO_BYTE_TRADE,
        FINAL_DATE,
        FINAL_FIX,
    ];
}

/// The bytes of each body. None needs the high byte of a length.
pub mod length {
    /// Buyer 1, seller 1, kind 1, quantity 4, price 4.
    pub const TRADE: u8 = 11;
    /// Bid 4, offer 4.
    pub const QUOTE: u8 = 8;
    /// Index 4.
    pub const MINUTE_END: u8 = 4;
    pub const HALT: u8 = 0;
    pub const RESUME: u8 = 0;
    /// Set price 4.
    pub const FIX: u8 = 4;
    pub const CLOSE: u8 = 0;
    /// Minutes 2.
    pub const LENGTH_OF_DAY: u8 = 2;
    /// Milliseconds 2, bid 4, offer 4.
    pub const TIMED_QUOTE: u8 = 10;
    /// Buyer 2, seller 2, kind 1, quantity 4, price 4.
    pub const TWO_BYTE_TRADE: u8 = 13;
    /// Year 2, month 1.
    pub const FINAL_DATE: u8 = 3;
    /// Hourly index value 4.
    pub const FINAL_FIX: u8 = 4;
}

/// "Kind 0 simple, 1 spread against spread, 2 block."
pub mod kind {
    pub const SIMPLE: u8 = 0;
    pub const SPREAD: u8 = 1;
    pub const BLOCK: u8 = 2;
}

/// The bytes of a record before its body: tag and length.
pub const HEADER: usize = 3;

/// The longest body that a two-byte length can state.
pub const LONGEST_BODY: usize = u16::MAX as usize;

/// The bytes of its input that `funding-bench` reads, size byte included.
pub const BENCH_LIMIT: usize = 65_536;

/// The length that belongs to a tag, none for an unknown one.
pub fn body_length(tag: u8) -> Option<usize> {
    let length = match tag {
        tag::TRADE => length::TRADE,
        tag::QUOTE => length::QUOTE,
        tag::MINUTE_END => length::MINUTE_END,
        tag::HALT => length::HALT,
        tag::RESUME => length::RESUME,
        tag::FIX => length::FIX,
        tag::CLOSE => length::CLOSE,
        tag::LENGTH_OF_DAY => length::LENGTH_OF_DAY,
        tag::TIMED_QUOTE => length::TIMED_QUOTE,
        tag::TWO_BYTE_TRADE => length::TWO_BYTE_TRADE,
        tag::FINAL_DATE => length::FINAL_DATE,
        tag::FINAL_FIX => length::FINAL_FIX,
        _ => return None,
    };
    Some(length.into())
}

/// The first record's tag, the length that it states, and the bytes after its header; none if the
/// end cuts it off within the header.
pub fn header(bytes: &[u8]) -> Option<(u8, usize, &[u8])> {
    let (&[tag, high, low], after) = bytes.split_first_chunk::<HEADER>()?;
    Some((tag, u16::from_be_bytes([high, low]).into(), after))
}

#[cfg(test)]
mod tests {
    use super::*;

    /// The numbers once more, as documents 01 and 02 list them.
    #[test]
    fn tags_and_lengths_are_those_of_the_documents() {
        let lengths = [
            (1, 11),
            (2, 8),
            (3, 4),
            (4, 0),
            (5, 0),
            (6, 4),
            (7, 0),
            (8, 2),
            (9, 10),
            (10, 13),
            (11, 3),
            (12, 4),
        ];
        assert_eq!(tag::KNOWN, lengths.map(|(tag, _)| tag));
        for tag in 0..=u8::MAX {
            let listed = lengths.iter().find(|(known, _)| *known == tag);
            assert_eq!(body_length(tag), listed.map(|(_, length)| *length));
        }
    }
}

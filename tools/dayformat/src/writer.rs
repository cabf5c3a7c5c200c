//! Writes files of records.

use crate::tag;

/// A file under way, record by record. It doesn't check what it is told to write.
#[derive(Clone, Debug, Default)]
pub struct Writer {
    pub bytes: Vec<u8>,
}

impl Writer {
    pub fn new() -> Self {
        Writer::default()
    }

    /// A record with any tag and body, with the length that belongs to the body.
    pub fn record(&mut self, tag: u8, body: &[u8]) -> &mut Self {
        let length = u16::try_from(body.len()).expect("a body is at most LONGEST_BODY long");
        self.bytes.push(tag);
        self.bytes.extend(length.to_be_bytes());
        self.bytes.extend(body);
        self
    }

    /// A trade whose accounts, buyer and seller, are one byte each.
    pub fn trade(&mut self, accounts: (u8, u8), kind: u8, quantity: u32, price: u32) -> &mut Self {
        let accounts = [accounts.0, accounts.1];
        let body = trade_body(&accounts, kind, quantity, price);
        self.record(tag::TRADE, &body)
    }

    /// A trade whose accounts, buyer and seller, are two bytes each.
    pub fn two_byte_trade(
        &mut self,
        accounts: (u16, u16),
        kind: u8,
        quantity: u32,
        price: u32,
    ) -> &mut Self {
        let accounts = [accounts.0.to_be_bytes(), accounts.1.to_be_bytes()].concat();
        let body = trade_body(&accounts, kind, quantity, price);
        self.record(tag::TWO_BYTE_TRADE, &body)
    }

    pub fn quote(&mut self, bid: u32, offer: u32) -> &mut Self {
        let sides = [bid.to_be_bytes(), offer.to_be_bytes()];
        self.record(tag::QUOTE, &sides.concat())
    }

    pub fn minute_ends(&mut self, count: usize, index: u32) -> &mut Self {
        for _ in 0..count {
            self.record(tag::MINUTE_END, &index.to_be_bytes());
        }
        self
    }

    pub fn halt(&mut self) -> &mut Self {
        self.record(tag::HALT, &[])
    }

    pub fn resume(&mut self) -> &mut Self {
        self.record(tag::RESUME, &[])
    }

    pub fn fix(&mut self, set_price: u32) -> &mut Self {
        self.record(tag::FIX, &set_price.to_be_bytes())
    }

    pub fn close(&mut self) -> &mut Self {
        self.record(tag::CLOSE, &[])
    }

    pub fn length_of_day(&mut self, minutes: u16) -> &mut Self {
        self.record(tag::LENGTH_OF_DAY, &minutes.to_be_bytes())
    }

    /// The time is milliseconds into the minute.
    pub fn timed_quote(&mut self, time: u16, bid: u32, offer: u32) -> &mut Self {
        let mut body = time.to_be_bytes().to_vec();
        body.extend(bid.to_be_bytes());
        body.extend(offer.to_be_bytes());
        self.record(tag::TIMED_QUOTE, &body)
    }

    /// The date becomes the last one of the contract of a month.
    pub fn final_date(&mut self, year: u16, month: u8) -> &mut Self {
        let [high, low] = year.to_be_bytes();
        self.record(tag::FINAL_DATE, &[high, low, month])
    }

    /// The fix of a final date, with its hourly index value.
    pub fn final_fix(&mut self, hourly: u32) -> &mut Self {
        self.record(tag::FINAL_FIX, &hourly.to_be_bytes())
    }
}

/// The accounts are the bytes of buyer and seller.
fn trade_body(accounts: &[u8], kind: u8, quantity: u32, price: u32) -> Vec<u8> {
    let (quantity, price) = (quantity.to_be_bytes(), price.to_be_bytes());
    [accounts, &[kind], &quantity, &price].concat()
}

#[cfg(test)]
mod tests {
    use super::*;
    use crate::{body_length, header};

    #[test]
    fn each_call_has_the_length_of_its_tag() {
        let mut file = Writer::new();
        file.trade((3, 7), 0, 12, 200_200).quote(200_100, 200_300);
        file.minute_ends(1, 200_000).halt().resume().fix(0).close();
        file.length_of_day(1_140);
        file.timed_quote(30_000, 200_100, 200_300);
        file.two_byte_trade((3, 1_023), 0, 12, 200_200);
        file.final_date(2_035, 10).final_fix(200_005);
        let (mut rest, mut tags) = (&file.bytes[..], Vec::new());
        while let Some((tag, length, after)) = header(rest) {
            assert_eq!(body_length(tag), Some(length));
            tags.push(tag);
            rest = &after[length..];
        }
        assert_eq!(tags, tag::KNOWN);
    }

    #[test]
    fn a_year_is_written_high_byte_first() {
        let mut file = Writer::new();
        file.final_date(2_035, 10);
        assert_eq!(file.bytes, [11, 0, 3, 7, 243, 10]);
    }
}

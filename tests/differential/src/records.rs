//! A file as its records.

use dayformat::{header, HEADER};

/// The bytes of each record; the last may be cut off.
pub fn split(file: &[u8]) -> Vec<Vec<u8>> {
    let mut records = Vec::new();
    let mut rest = file;
    while !rest.is_empty() {
        let end = header(rest).map_or(rest.len(), |(_, length, _)| HEADER + length);
        let (record, after) = rest.split_at(end.min(rest.len()));
        records.push(record.to_vec());
        rest = after;
    }
    records
}

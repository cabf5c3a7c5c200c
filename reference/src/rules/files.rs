//! Reports, file and program.

use crate::call::Account;
use crate::file::number;
use crate::play::{Answer, Played};
use crate::terms::ACCOUNTS;
use crate::Lists;
use dayformat::{body_length, tag, BENCH_LIMIT};
use std::ops::Range;

pub trait FileRules: Sync {
    /// The length that belongs to a tag, none for an unknown one: "Other tags are unknown."
    fn body_length(&self, tag: u8) -> Option<usize> {
        body_length(tag)
    }

    /// Whether its records are sets of trades. 02-6: "a set has no file record".
    fn is_set(&self, _tag: u8) -> bool {
        false
    }

    /// The bytes of buyer and of seller in a trade. 02-5: "Tag 10 is a trade with two-byte buyer and
    /// seller; tag 1 still reads as before", "buyer 1 byte, seller 1".
    fn account_bytes(&self, tag: u8) -> usize {
        match tag {
            tag::TWO_BYTE_TRADE => 2,
            _ => 1,
        }
    }

    /// "High byte first."
    fn account(&self, bytes: &[u8]) -> Account {
        number(bytes) as Account
    }

    /// "A file record is cut off by the end of the file": whether one is, by the bytes left after the
    /// last whole one.
    fn is_cut_off(&self, rest: &[u8]) -> bool {
        !rest.is_empty()
    }

    /// "A known tag has a wrong length, and its body is passed over": what follows a record with
    /// these bytes after its header, none if it is cut off.
    fn after_wrong_length<'a>(&self, bytes: &'a [u8], length: usize) -> Option<&'a [u8]> {
        bytes.get(length..)
    }

    /// "Unknown records, which are neither accepted nor refused."
    fn is_accepted(&self, answer: Answer) -> bool {
        matches!(answer, Answer::Accepted(_) | Answer::AcceptedSet)
    }

    /// Whether a list of this length is refused. 02-5: "reports need lists of 1,024, else 10".
    fn refuses_list(&self, length: usize) -> bool {
        length != ACCOUNTS
    }

    /// "The lists report the book where the run ended"; none stands for untouched lists.
    fn lists(&self, played: &Played) -> Option<Lists> {
        Some(played.report())
    }

    /// "Only the first 65,536 bytes count, size byte included."
    fn bench_limit(&self) -> usize {
        BENCH_LIMIT
    }

    /// The accounts that a close looks through. 02-5: "0 to 1,023".
    fn printed_accounts(&self) -> Range<Account> {
        0..ACCOUNTS as Account
    }

    /// "Where either is nonzero."
    fn close_prints(&self, position: i128, cash: i128) -> bool {
        position != 0 || cash != 0
    }

    /// "Its place from 1 (unknown ones count)."
    fn counts_in_places(&self, _answer: Answer) -> bool {
        true
    }
}

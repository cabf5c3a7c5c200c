//! Wrong readings of files, wrong printouts and reports.

use dayformat::{body_length, BENCH_LIMIT, HEADER};
use reference::play::{Answer, Played};
use reference::rules::FileRules;
use reference::Lists;

pub struct ClosePrintsBothNonzero;

impl FileRules for ClosePrintsBothNonzero {
    fn close_prints(&self, position: i128, cash: i128) -> bool {
        position != 0 && cash != 0
    }
}

pub struct UnknownNotInPlaces;

impl FileRules for UnknownNotInPlaces {
    fn counts_in_places(&self, answer: Answer) -> bool {
        answer != Answer::Unknown
    }
}

pub struct WrongLengthBodyRead;

impl FileRules for WrongLengthBodyRead {
    fn after_wrong_length<'a>(&self, bytes: &'a [u8], _length: usize) -> Option<&'a [u8]> {
        Some(bytes)
    }
}

pub struct WrongLengthEndsRun;

impl FileRules for WrongLengthEndsRun {
    fn after_wrong_length<'a>(&self, bytes: &'a [u8], length: usize) -> Option<&'a [u8]> {
        bytes.get(length..).map(|_| &[][..])
    }
}

pub struct CutOffIgnored;

impl FileRules for CutOffIgnored {
    fn is_cut_off(&self, _rest: &[u8]) -> bool {
        false
    }
}

pub struct CutOffUnknownIgnored;

impl FileRules for CutOffUnknownIgnored {
    fn is_cut_off(&self, rest: &[u8]) -> bool {
        rest.first().is_some_and(|tag| body_length(*tag).is_some())
    }
}

pub struct LeftoverBytesIgnored;

impl FileRules for LeftoverBytesIgnored {
    fn is_cut_off(&self, rest: &[u8]) -> bool {
        rest.len() >= HEADER
    }
}

pub struct InputLimitWithoutSize;

impl FileRules for InputLimitWithoutSize {
    fn bench_limit(&self) -> usize {
        1 + BENCH_LIMIT
    }
}

pub struct UnknownAccepted;

impl FileRules for UnknownAccepted {
    fn is_accepted(&self, answer: Answer) -> bool {
        !matches!(answer, Answer::Refused(_))
    }
}

pub struct NothingAcceptedUntouched;

impl FileRules for NothingAcceptedUntouched {
    fn lists(&self, played: &Played) -> Option<Lists> {
        (played.accepted() != 0).then(|| played.report())
    }
}

//! The rules that decide what a ledger answers, each with its sentence of document 01 or, marked by
//! its number as in `02-1:`, of a request of document 02.

mod calls;
mod expiry;
mod files;
mod midpoints;
mod refusals;
mod sets;

pub use calls::CallRules;
pub use expiry::{AtClose, ExpiryRules};
pub use files::FileRules;
pub use midpoints::MidpointRules;
pub use refusals::RefusalRules;
pub use sets::SetRules;

use dayformat::set;

/// A ledger's rules. Each part is a trait whose default methods are the documents'.
#[derive(Clone, Copy)]
pub struct Rules {
    pub calls: &'static dyn CallRules,
    pub midpoints: &'static dyn MidpointRules,
    pub refusals: &'static dyn RefusalRules,
    pub sets: &'static dyn SetRules,
    pub expiry: &'static dyn ExpiryRules,
    pub files: &'static dyn FileRules,
}

impl Rules {
    pub const RIGHT: Rules = Rules {
        calls: &RightLedger,
        midpoints: &RightLedger,
        refusals: &RightLedger,
        sets: &RightLedger,
        expiry: &RightLedger,
        files: &RightLedger,
    };

    /// Of `set_bench`, whose input may have sets.
    pub const WITH_SETS: Rules = Rules {
        files: &WithSets,
        ..Rules::RIGHT
    };
}

/// The ledger of documents 01 and 02.
pub struct RightLedger;

impl CallRules for RightLedger {}
impl MidpointRules for RightLedger {}
impl RefusalRules for RightLedger {}
impl SetRules for RightLedger {}
impl ExpiryRules for RightLedger {}
impl FileRules for RightLedger {}

/// Reads the records of a day file, and sets.
struct WithSets;

impl FileRules for WithSets {
    fn is_set(&self, tag: u8) -> bool {
        tag == set::TAG
    }
}

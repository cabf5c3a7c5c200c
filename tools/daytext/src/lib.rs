//! Day files of the funding ledger as text, and back.
//!
//! `docs/FORMAT.md` lays down both forms. Every byte string has a text:
//! `encode(&decode(bytes))` gives the bytes again.

mod decode;
mod encode;
mod line;
mod record;
mod value;

pub use decode::decode;
pub use encode::{encode, LineError};

//! A funding ledger in plain Rust that steps a book in place, as fast as safe code made it. The
//! proved library's speed is held to it.

#![forbid(unsafe_code)]

mod book;
mod fridays;
pub mod inputs;
mod market;
mod play;
mod price;
pub mod sets;
mod settlement;
mod trade;

pub use fridays::last_friday;
pub use play::{answers, run};
pub use trade::ACCOUNTS;

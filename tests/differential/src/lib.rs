//! Plays generated inputs through a program under test and the reference.

pub mod compare;
pub mod damage;
pub mod generator;
pub mod profiles;
pub mod random;
pub mod records;
pub mod runner;
pub mod shrink;
pub mod wrong;

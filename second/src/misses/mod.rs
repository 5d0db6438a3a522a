//! Releases that miss: what the clerk writes for plans that do not pass, and what can miss at all.

pub mod ask;
mod check;
mod kinds;
pub mod payable;
pub mod plans;
pub mod sharp;

//! The crew's board (document 02, W-214): a run with dates, and the diary's yearly tests on their days.

pub mod answer;
pub mod batch;
mod board;
pub mod checks;
mod files;
mod input;
mod inputs;

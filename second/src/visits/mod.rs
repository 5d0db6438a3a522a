//! The contractor's visit list (document 02, W-211): its check, and the visits of our own run.

pub mod answer;
pub mod ask;
mod bends;
mod check;
pub mod checks;
mod damage;
mod lists;
mod own;
pub mod plans;
mod text;

use crate::rules::plan::{Day, Length};

/// A record of a list. Its numbers may be any.
#[derive(Clone, Debug, PartialEq)]
pub struct Visit {
    /// The place in the plan's list of the release that it serves, counted from 1.
    pub release: u64,
    pub first: Day,
    pub length: Length,
}

impl Visit {
    /// The day after its last.
    pub fn end(&self) -> Day {
        self.first + self.length
    }
}

//! How far each number of a plan can go, by trying every value.

pub mod answer;
pub mod ask;
pub mod plans;

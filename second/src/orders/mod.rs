//! Plan files with the same strings in another order (document 02, W-209): which string is which, and what stays the same.

pub mod answer;
pub mod ask;
mod pairs;

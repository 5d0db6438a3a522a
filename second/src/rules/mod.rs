//! Documents 01 and 02, written down once more in the plainest way.

pub mod answer;
pub mod every_list;
pub mod frames;
pub mod plan;
pub mod quick;
pub mod rule;
pub mod run;
pub mod search;
pub mod stints;

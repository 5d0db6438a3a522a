//! Plan files damaged in every way that the refusal table names.

pub mod bytes;
pub mod cuts;
pub mod lines;
pub mod long;
pub mod noise;
pub mod release_count;
pub mod releases;
pub mod several;
pub mod sheet;
pub mod values;
pub mod versions;

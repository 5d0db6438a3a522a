//! Plans within their bounds, made by chance.

pub mod border;
pub mod claim;
pub mod cycles;
pub mod extreme;
pub mod far;
pub mod load;
pub mod releases;
pub mod runs;
pub mod shaped;
pub mod strings;
pub mod takings;

//! The asset register's table (document 02, W-210): its exports read into plans, and plans' strings written as it has them.

pub mod answer;
mod bounds;
pub mod checks;
mod damage;
mod export;
pub mod exports;
pub mod plans;
pub mod reader;
pub mod run_length;
pub mod writer;

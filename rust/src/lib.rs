//! The proved receiver and the optimiser's end of its link for Rust programs, and an independent second one of each to compare them with.

pub mod blocks;
pub mod board;
pub mod fault;
pub mod generator;
pub mod host;
pub mod position;
pub mod same;
pub mod second;
pub mod second_flash;
pub mod second_host;
pub mod table;

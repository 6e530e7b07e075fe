//! A second implementation of document 01, written from the paper and not from the proved definitions.
//! It walks the day second by second: 86,400 steps of the paper's rule of one second, no shortcuts.
//! Plain on purpose; it is the yardstick of the comparison and is not meant to be fast.

pub mod calls;
pub mod day;
pub mod profile;
pub mod records;
pub mod trajectory;
pub mod validation;

pub use day::{profiler, Day};

pub const DAY_SECONDS: u64 = 86_400;
pub const HALF_HOUR: u64 = 1_800;
pub const GRAINS: u64 = 60; // grains in a kW

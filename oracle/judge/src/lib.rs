//! The judge: answers to CALLS records from the original Rust, cases from a seed, and the comparison of two sides.

pub mod answer;
pub mod cases;
pub mod fields;
pub mod random;
pub mod record;
pub mod scratch;
pub mod shrink;
pub mod sides;

/// A batch has at most this many bytes.
pub const BATCH: usize = 65_536;

//! Jobs' bytes that a fuzzer finds by what the archive's own code does with them, each answer held to the second reading.
//!
//! - `page`: a job that ends, or begins, where memory ends.
//! - `check`: one input put to the archive and to the second reading.
//! - `mutate`: a job's records changed, and the form mended.
//! - `seeds`: what a run begins with.

/// The longest input: over the program's 32,768.
pub const MOST: usize = 33_000;

#[cfg(feature = "linked")]
pub mod check;
pub mod mutate;
pub mod page;
pub mod seeds;

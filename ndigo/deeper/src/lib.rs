//! A search for better paths than the proved one found. It is plain Rust and not proved: whatever it proposes is put to the
//! caller's check, and what the check does not say yes to is never held. A module for each idea; docs/DEEPER.md tells them in order.
mod beam;
mod best;
mod bound;
mod branch;
mod climb;
mod fit;
mod goal;
mod lists;
pub mod planted;
mod problem;
mod score;
mod search;
mod table;

pub use best::{Found, Proposal};
pub use problem::{Counts, Problem, Settings, Variant};
pub use score::scored;
pub use search::{search, Effort, Ended, Looked, Step};

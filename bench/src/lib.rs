//! What the two commands of the bench share: the inputs, kanpig's Rust on them, the clock and the chart.
pub mod cases;
pub mod chart;
pub mod random;
pub mod rust_side;
pub mod timing;

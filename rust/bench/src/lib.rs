//! What the benchmark times beside the proved program: a settlement in plain loops, and the cases that all are timed on.
//!
//! - [`tuned`]: the settlement, written for speed in safe Rust.
//! - [`shapes`]: the single cases.

pub mod shapes;
pub mod tuned;

//! Answers as they are printed.

pub mod check;
mod csv;
pub mod json;
pub mod line;
pub mod money;
pub mod notes;
mod rows;
pub mod settlement;
pub mod working;

//! Answers for programs, and the exit statuses of every format.

mod schema;
mod settlements;
mod statuses;
#[path = "../support/mod.rs"]
mod support;

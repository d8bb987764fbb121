//! Texts: what is taken, what is told of one that is not, and where a refusal stands in one.

mod any_order;
mod as_people_write;
mod errors;
mod mistakes;
mod noise;
#[path = "../support/mod.rs"]
mod support;
mod text_or_case;

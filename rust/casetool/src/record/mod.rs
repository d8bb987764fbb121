//! The records of a case: the table of their fields, with forms and limits, and what an event is known by.

pub mod event;
pub mod field;
pub mod fields;
pub mod needs;

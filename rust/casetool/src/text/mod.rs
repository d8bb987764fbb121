//! A case as text: how values are written, and the way from text to records and back.

pub mod amounts;
pub mod bytes;
pub mod calendar;
pub mod hours;
pub mod line;
pub mod mistakes;
pub mod near;
mod needs;
pub mod order;
mod period;
mod read;
pub mod show;
pub mod source;
pub mod values;
pub mod version;
pub mod words;
pub mod write;

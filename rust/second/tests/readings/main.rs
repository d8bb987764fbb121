//! Small cases worked by hand, for each reading that is open in the words or easy to get wrong.

mod calendar;
#[path = "../common/mod.rs"]
mod common;
mod conduct;
mod default_bids;
mod fuel;
mod penalties;

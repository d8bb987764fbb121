//! `casetool line`: one line from arguments, and the bids of a case beside their lines.

mod arguments;
mod out_of_range;
mod programs;
#[path = "../support/mod.rs"]
mod support;
mod tables;

use support::{Ran, casetool};

/// What the answer says of the three times.
const SUM_OF_TIMES: [&str; 2] = [
    "The sum counts too: up to the line an hour may be flagged, where the minutes above reference of",
    "the three times of one unit, day, market and hour come to more than 360.",
];

/// Asks for a line with these arguments, which have spaces between them and none in them.
fn asked(arguments: &str) -> Ran {
    let words: Vec<&str> = ["line"].into_iter().chain(arguments.split(' ')).collect();
    casetool(&words, b"")
}

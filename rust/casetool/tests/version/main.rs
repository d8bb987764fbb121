//! Version 2 of the case file: which version a text gives, corrections with their case and alone, copies, what is
//! refused and where, and answers with numbers of six digits.

mod answers;
mod convert;
mod corrections;
mod lines;
mod places;
#[path = "../support/mod.rs"]
mod support;

use attachment_h::layout::Sections;
use support::{casetool, repository, written_and_warned_of};

/// A unit of this number.
fn unit(number: u64) -> String {
    format!("unit {number} group 7 area no capability 500.0 MW\n")
}

/// A reference of a unit of this number.
fn reference(number: u64) -> String {
    format!("reference unit {number} component energy value $20.00\n")
}

/// An event of a unit of this number.
fn event(number: u64) -> String {
    format!("event day 8000 kind withheld market day-ahead unit {number} period 44 impact 1\n")
}

/// 200 events of unit 12, in both markets on 100 days of one capability period.
fn two_hundred_events() -> String {
    let events = (0..200).map(|place| {
        let market = ["day-ahead", "real-time"][place % 2];
        event(12)
            .replace("day 8000", &format!("day {}", place / 2))
            .replace("period 44", "period 0")
            .replace("day-ahead", market)
    });
    events.collect()
}

/// A past entry.
const PAST: &str = "past group 7 kind fuel market 0 period 0 day 0\n";

/// The number of the version of the file that a text gives.
fn version_of(text: &str) -> u16 {
    let (file, _) = written_and_warned_of(text);
    Sections::of(&file).expect("sections").version().number()
}

/// That a text is turned away with this message alone.
fn wrong(text: &str, message: &str) {
    let ran = casetool(&["write", "--allow-empty"], text.as_bytes());
    assert_eq!((ran.status, ran.output.len()), (1, 0), "{text}");
    let message = format!("casetool: standard input: {message}\n");
    assert_eq!(ran.errors, message, "{text}");
}

fn example(name: &str) -> String {
    std::fs::read_to_string(repository(&format!("examples/{name}"))).expect("an example")
}

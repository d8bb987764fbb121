//! "What a case can break": each example, each range, the order of the numbers, the listing, and the subtotal.

mod calendar;
mod calls;
#[path = "../common/mod.rs"]
mod common;
mod events;
mod layout;
mod records;
mod rows;
mod subtotal;
mod whole_case;

use cases::case::{ROW_BYTES, section_place};
use cases::{Case, Event, Market, Unit};
use common::{number_of, past_withheld, reference, unit};

/// The worked listing example.
fn example() -> Case {
    Case {
        units: vec![
            unit(12, 7),
            Unit {
                capability: 15_000,
                ..unit(13, 7)
            },
        ],
        events: vec![
            Event::withheld(8_000, Market::DAY_AHEAD, 12, &[(0, 501, 4_000)]).in_period(44),
        ],
        ..Case::default()
    }
}

/// The example with a reference, a past entry and a bids event, so that every section has records.
fn full() -> Case {
    let mut case = example();
    case.references = vec![reference(12, 0, 2_000)];
    case.past = vec![past_withheld(7, Market::DAY_AHEAD, 44)];
    case.events.push(Event::bids(
        8_000,
        Market::DAY_AHEAD,
        12,
        0,
        0,
        &[(0, 9_000, 0, 0)],
    ));
    case
}

/// The number that a file breaks, with enough rows and no correction.
fn of_bytes(file: &[u8]) -> u8 {
    number_of(file, &[], ROW_BYTES * 200)
}

/// The number that `full` breaks after a change of one byte in a section.
fn with_byte(section: usize, at: usize, value: u8) -> u8 {
    let mut file = full().to_bytes();
    let (offset, _) = section_place(&file, section);
    assert_ne!(file[offset + at], value);
    file[offset + at] = value;
    of_bytes(&file)
}

//! The pencil sheet (docs/RULES.md, C18), line by line, on the smaller calls and on whole cases.

#[path = "../common/mod.rs"]
mod common;
mod conduct;
mod default_bids;
mod penalties;

use cases::{Case, Event, Market, Unit};
use common::{rows_of, unit};

/// The flag mask of a single withheld event of unit 12 (5,000) in hour 0, in a G of 20,000.
fn withheld_row(a: u32, b: i32) -> cases::Row {
    let case = Case {
        units: vec![
            unit(12, 7),
            Unit {
                capability: 15_000,
                ..unit(13, 7)
            },
        ],
        events: vec![Event::withheld(8_000, Market::DAY_AHEAD, 12, &[(0, a, b)])],
        ..Case::default()
    };
    rows_of(&case, &[]).remove(0)
}

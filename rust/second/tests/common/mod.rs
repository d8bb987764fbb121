//! Settling a typed case and reading its rows back; the same of its version 2 copy.

#![allow(dead_code)]

pub mod version_2;

use cases::calendar::{first_of_period, period_of};
use cases::case::{ROW_BYTES, correction_bytes};
use cases::{Case, Component, Kind, Market, Past, Reference, Row, Unit, Version};
use second::calls::BidHour;
use second::{
    Outcome, instances, listing, make_up_working, penalty_working, refusal, settle, subtotal,
};
use version_2::{copy_of, correction_copy_of, has_copy};

/// Day-Ahead, not tight.
pub const PLAIN: BidHour = BidHour {
    market: Market::DAY_AHEAD.0,
    tight: false,
    constrained_hours: 0,
    average_price: 0,
};

/// Real-Time and tight, where an increase of 876 passes and one of 877 fails.
pub const TIGHT: BidHour = BidHour {
    market: Market::REAL_TIME.0,
    tight: true,
    constrained_hours: 1_000,
    average_price: 5_000,
};

/// A unit of capability 5,000 and rate 1,000, outside a Constrained Area.
pub fn unit(unit: u32, group: u16) -> Unit {
    Unit {
        unit,
        group,
        capability: 5_000,
        response_rate: 1_000,
        ..Unit::default()
    }
}

pub fn reference(unit: u32, component: u8, value: u32) -> Reference {
    Reference {
        unit,
        component: Component(component),
        value,
    }
}

/// A kind 1 past entry on the first day of the period, which is all that its day is for.
pub fn past_withheld(group: u16, market: Market, period: u16) -> Past {
    Past {
        group,
        kind: Kind::WITHHELD,
        market,
        period,
        day: first_of_period(period),
    }
}

/// A kind 3 past entry, with its day's period, which is of no other account.
pub fn past_fuel(group: u16, market: Market, day: u32) -> Past {
    Past {
        group,
        kind: Kind::FUEL,
        market,
        period: period_of(day),
        day,
    }
}

/// The bytes of a version 1 correction.
pub fn correction_of(references: &[Reference]) -> Vec<u8> {
    correction_bytes(Version::One, references)
}

/// The number that the case breaks, none of 1 to 4, with enough rows; its version 2 copy, which it has, breaks the same.
#[track_caller]
pub fn number(case: &Case, correction: &[Reference]) -> u8 {
    let (file, correction) = (case.to_bytes(), correction_of(correction));
    assert!(has_copy(&file, &correction), "no copy");
    let number = number_of(&file, &correction, ROW_BYTES * case.events.len());
    assert!(!(1..=4).contains(&number), "{number}: not of the copy");
    number
}

/// The number that a file breaks; the version 2 copy of one of version 1, where it has one, breaks the same.
pub fn number_of(file: &[u8], correction: &[u8], rows_len: usize) -> u8 {
    let number = refusal(file, correction, rows_len);
    // 1 to 4 are of a file without sections.
    if !(1..=4).contains(&number) && has_copy(file, correction) {
        let (copy, correction_copy) = (copy_of(file), correction_copy_of(correction));
        assert_eq!(refusal(&copy, &correction_copy, rows_len), number);
    }
    number
}

/// The rows of an accepted case; checks the totals, the zero bytes and the bytes beyond the rows,
/// and that its version 2 copy gives the same.
pub fn rows_of(case: &Case, correction: &[Reference]) -> Vec<Row> {
    let (file, correction) = (case.to_bytes(), correction_of(correction));
    let beyond = 77;
    let mut buffer = vec![0xA5; ROW_BYTES * case.events.len() + beyond];
    let outcome = settle(&file, &correction, &mut buffer);
    let rows = Row::first(&buffer, case.events.len());
    assert_eq!(
        outcome,
        Outcome::Settled {
            rows: rows.len(),
            penalties: rows.iter().map(|row| row.penalty.0).sum(),
            make_ups: rows.iter().map(|row| row.make_up.0).sum(),
        }
    );
    for row in buffer.chunks_exact(ROW_BYTES) {
        assert_eq!([row[25], row[30], row[31]], [0; 3]);
    }
    assert!(
        buffer[ROW_BYTES * rows.len()..]
            .iter()
            .all(|&byte| byte == 0xA5)
    );
    same_of_the_copy(&file, &correction, outcome, &buffer);
    rows
}

/// Settles the version 2 copy to the same outcome, rows, listing, workings and subtotals.
fn same_of_the_copy(file: &[u8], correction: &[u8], outcome: Outcome, rows: &[u8]) {
    let (copy, correction_copy) = (copy_of(file), correction_copy_of(correction));
    let mut buffer = vec![0xA5; rows.len()];
    assert_eq!(settle(&copy, &correction_copy, &mut buffer), outcome);
    assert_eq!(buffer, rows);
    assert_eq!(listing(&copy), listing(file));
    for event in 0..=rows.len() / ROW_BYTES {
        assert_eq!(
            penalty_working(&copy, &correction_copy, event),
            penalty_working(file, correction, event)
        );
        assert_eq!(
            instances(&copy, &correction_copy, event),
            instances(file, correction, event)
        );
        assert_eq!(
            make_up_working(&copy, &correction_copy, event),
            make_up_working(file, correction, event)
        );
        assert_eq!(subtotal(&copy, event), subtotal(file, event));
    }
}

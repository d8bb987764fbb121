//! The fields of an event (docs/RULES.md, L10).

use cases::case::section_place;
use cases::{Case, Event, Kind, Market};

use crate::common::{number, reference, unit};
use crate::{full, of_bytes};

/// The number of a case whose only event is this one, with references for all components.
pub fn of_event(event: Event) -> u8 {
    let case = Case {
        units: vec![unit(12, 7)],
        references: (0..9)
            .map(|component| reference(12, component, 1))
            .collect(),
        events: vec![event],
        ..Case::default()
    };
    number(&case, &[])
}

/// The number of a case whose only event is this one after a change of one byte of its record.
fn of_event_with_byte(event: Event, at: usize, value: u8) -> u8 {
    let case = Case {
        units: vec![unit(12, 7)],
        references: vec![reference(12, 0, 1)],
        events: vec![event],
        ..Case::default()
    };
    let mut file = case.to_bytes();
    let (offset, _) = section_place(&file, 3);
    file[offset + at] = value;
    of_bytes(&file)
}

/// An event of each kind.
pub fn kinds() -> [Event; 4] {
    [
        Event::withheld(0, Market::REAL_TIME, 12, &[]).with_impact(0),
        Event::dispatch(0, 12, &[]).with_impact(0),
        Event::fuel(0, Market::REAL_TIME, 12, (0, 0, 0), &[]),
        Event::bids(0, Market::REAL_TIME, 12, 0, 0, &[]),
    ]
}

#[test]
fn event_ranges_of_every_kind() {
    let kinds = kinds();
    for event in kinds {
        assert_eq!(of_event(event), 0);
        ranges_of_the_head(event);
        ranges_of_words(event);
    }
    // Dispatch is market 1 only.
    assert_eq!(of_event_with_byte(kinds[1], 1, 0), 10);
    // Impact 2 and 255 in kind 1.
    assert_eq!(of_event(kinds[0].with_impact(2)), 10);
    assert_eq!(of_event(kinds[0].with_impact(255)), 10);
}

fn ranges_of_the_head(event: Event) {
    let Kind(kind) = event.kind();
    assert_eq!(of_event_with_byte(event, 0, 0), 10, "kind 0");
    assert_eq!(of_event_with_byte(event, 0, 5), 10, "kind 5");
    assert_eq!(of_event_with_byte(event, 1, 2), 10, "market 2");
    assert_eq!(
        of_event_with_byte(event, 6, 9),
        10,
        "component 9 in kind {kind}"
    );
    // Component 1 is named in kind 4 only, and has no reference here.
    assert_eq!(
        of_event_with_byte(event, 6, 1),
        if kind == 4 { 14 } else { 10 },
        "component 1 in kind {kind}"
    );
    assert_eq!(
        of_event_with_byte(event, 7, 1),
        if kind <= 2 { 0 } else { 10 },
        "impact 1 in kind {kind}"
    );
    assert_eq!(of_event_with_byte(event, 7, 2), 10, "impact 2");
}

fn ranges_of_words(event: Event) {
    let Kind(kind) = event.kind();
    // Bits 24 to 31 of P, in every kind.
    for bit in 0..8 {
        assert_eq!(
            of_event_with_byte(event, 15, 1 << bit),
            10,
            "P bit of kind {kind}"
        );
    }
    assert_eq!(of_event_with_byte(event, 14, 128), 0, "P bit 23");
    // Bit 24 of Q is no hour in kind 4 and money in kind 3; kinds 1 and 2 have no Q.
    let expected = if kind == 3 { 0 } else { 10 };
    assert_eq!(
        of_event_with_byte(event, 19, 1),
        expected,
        "Q of kind {kind}"
    );
    // m is named in kind 4 only.
    let expected = if kind == 4 { 0 } else { 10 };
    assert_eq!(
        of_event_with_byte(event, 24 + 8, 1),
        expected,
        "m of kind {kind}"
    );
    assert_eq!(
        of_event_with_byte(event, 24 + 23 * 12 + 8, 1),
        expected,
        "m of kind {kind}, hour 23"
    );
    // R: no field in kinds 1 and 2, 0 in Real-Time in kind 3.
    assert_eq!(
        of_event_with_byte(event, 20, 1),
        expected,
        "R of kind {kind}"
    );
}

#[test]
fn money_and_quantity_ranges() {
    prices();
    revenues();
    quantities();
    changes_of_payments();
}

fn prices() {
    for (price, expected) in [
        (1_000_000, 0),
        (1_000_001, 10),
        (-1_000_000, 0),
        (-1_000_001, 10),
    ] {
        assert_eq!(
            of_event(Event::withheld(0, Market::DAY_AHEAD, 12, &[(23, 0, price)])),
            expected
        );
        let fuel = Event::fuel(0, Market::DAY_AHEAD, 12, (0, 0, 0), &[(23, 0, price)]);
        assert_eq!(of_event(fuel), expected);
        // b of kind 4 is checked for every component.
        for component in 0..9 {
            let bids = Event::bids(0, Market::DAY_AHEAD, 12, component, 0, &[(23, 0, price, 0)]);
            assert_eq!(of_event(bids), expected);
        }
    }
}

fn revenues() {
    for (revenue, expected) in [(100_000_000, 0), (100_000_001, 10), (u32::MAX, 10)] {
        assert_eq!(
            of_event(Event::dispatch(0, 12, &[(9, 0, revenue)])),
            expected
        );
    }
}

fn quantities() {
    for (quantity, expected) in [(50_000, 0), (50_001, 10), (u32::MAX, 10)] {
        let fuel = Event::fuel(0, Market::DAY_AHEAD, 12, (0, 0, 0), &[(0, quantity, 0)]);
        assert_eq!(of_event(fuel), expected);
        for component in 0..9 {
            let bids = Event::bids(
                0,
                Market::REAL_TIME,
                12,
                component,
                0,
                &[(0, 0, 0, quantity)],
            );
            assert_eq!(of_event(bids), expected);
        }
    }
}

fn changes_of_payments() {
    for (change, expected) in [
        (1_000_000_000, 0),
        (1_000_000_001, 10),
        (-1_000_000_000, 0),
        (-1_000_000_001, 10),
        (i32::MIN, 10),
    ] {
        let q = Event::fuel(0, Market::REAL_TIME, 12, (0, change, 0), &[]);
        assert_eq!(of_event(q), expected);
        let r = Event::fuel(0, Market::DAY_AHEAD, 12, (0, 0, change), &[]);
        assert_eq!(of_event(r), expected);
    }
    // R is 0 in Real-Time.
    assert_eq!(
        of_event(Event::fuel(0, Market::REAL_TIME, 12, (0, 0, -1), &[])),
        10
    );
    assert_eq!(
        of_event(Event::fuel(0, Market::REAL_TIME, 12, (0, 0, 1), &[])),
        10
    );
}

#[test]
fn bid_ranges() {
    for component in 0..9_u8 {
        let bid = |bid| {
            of_event(Event::bids(
                0,
                Market::DAY_AHEAD,
                12,
                component,
                0,
                &[(7, bid, 0, 0)],
            ))
        };
        let (low, high) = match component {
            0 | 1 => (-1_000_000, 1_000_000),
            2 => (0, 1_000_000),
            _ => (0, 1_000_000_000),
        };
        assert_eq!(
            [bid(low), bid(low - 1), bid(high), bid(high + 1)],
            [0, 10, 0, 10],
            "component {component}"
        );
        for market in [Market::DAY_AHEAD, Market::REAL_TIME] {
            for (run, expected) in [(0, 0), (24, 0), (25, 10), (u32::MAX, 10)] {
                let event = Event::bids(0, market, 12, component, 0, &[]);
                assert_eq!(of_event(event.with_minimum_run_hours(run)), expected);
            }
        }
    }
}

#[test]
fn withheld_mw_has_no_limit_of_its_own_in_10() {
    let largest = Event::withheld(8_000, Market::DAY_AHEAD, 12, &[(0, u32::MAX, 0)]);
    assert_eq!(of_event(largest), 13);
    assert_eq!(of_event(Event::dispatch(0, 12, &[(0, u32::MAX, 0)])), 13);
    // 11 and 12 come before.
    let mut case = full();
    case.events = vec![largest, largest];
    assert_eq!(number(&case, &[]), 11);
    case.events = vec![largest, Event::withheld(8_000, Market::DAY_AHEAD, 99, &[])];
    assert_eq!(number(&case, &[]), 12);
}

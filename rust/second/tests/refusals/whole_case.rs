//! An example of each number, events beside each other and beside their references, and the order of the numbers.

use cases::case::{ROW_BYTES, put_u32};
use cases::{Case, Component, Event, Kind, Market};

use crate::common::{number, number_of, past_withheld, reference, unit};
use crate::{example, full, of_bytes, with_byte};

#[test]
fn examples_of_the_table() {
    examples_of_layout();
    examples_of_records();
    examples_of_events();
}

fn examples_of_layout() {
    let good = full().to_bytes();
    assert_eq!(of_bytes(&good), 0);
    // 1: 35 bytes
    assert_eq!(of_bytes(&good[..35]), 1);
    // 2: version 9
    let mut file = good.clone();
    file[0] = 9;
    assert_eq!(of_bytes(&file), 2);
    // 3: count 3
    let mut file = good.clone();
    file[2] = 3;
    assert_eq!(of_bytes(&file), 3);
    // 4: first offset 40
    let mut file = good.clone();
    file[4] = 40;
    assert_eq!(of_bytes(&file), 4);
    // 5: units of 25 bytes, everything else following on
    let mut file = Case::default().to_bytes();
    file.extend([0; 25]);
    put_u32(&mut file, 8, 25);
    for pair in [12, 20, 28] {
        put_u32(&mut file, pair, 61);
    }
    assert_eq!(of_bytes(&file), 5);
}

fn examples_of_records() {
    // 6: area 2
    assert_eq!(with_byte(0, 4, 2), 6);
    // 7: component 9
    assert_eq!(with_byte(1, 2, 9), 7);
    // 8: 7 bytes
    let good = full().to_bytes();
    assert_eq!(number_of(&good, &[0; 7], 2 * ROW_BYTES), 8);
    // 9: kind 2
    assert_eq!(with_byte(2, 2, 2), 9);
}

fn examples_of_events() {
    // 10: market 2
    assert_eq!(with_byte(3, 1, 2), 10);
    // 11: same event twice
    let mut case = full();
    case.events.insert(1, case.events[0]);
    assert_eq!(number(&case, &[]), 11);
    // 12: unit 99
    let mut case = full();
    case.events[1].unit = 99;
    assert_eq!(number(&case, &[]), 12);
    // 13: 5,001 of 5,000
    let mut case = full();
    case.events[0] = Event::withheld(8_000, Market::DAY_AHEAD, 12, &[(0, 5_000, 0)]);
    assert_eq!(number(&case, &[]), 0);
    case.events[0] = Event::withheld(8_000, Market::DAY_AHEAD, 12, &[(0, 5_001, 0)]);
    assert_eq!(number(&case, &[]), 13);
    // 14: no references
    let mut case = full();
    case.references.clear();
    assert_eq!(number(&case, &[]), 14);
    // 15: 127 bytes, one event
    assert_eq!(number_of(&example().to_bytes(), &[], 127), 15);
    assert_eq!(number_of(&example().to_bytes(), &[], 128), 0);
}

#[test]
fn each_number_over_everything_before_the_next() {
    // 11 at the first pair of events, 10 in the third: 10.
    let mut case = full();
    let event = case.events[0];
    case.events = vec![event, event, event.with_impact(2)];
    assert_eq!(number(&case, &[]), 10);
    // 13 in the first event, 12 in the second: 12.
    case.events = vec![
        Event::withheld(0, Market::DAY_AHEAD, 12, &[(0, 5_001, 0)]),
        Event::withheld(1, Market::DAY_AHEAD, 99, &[]),
    ];
    assert_eq!(number(&case, &[]), 12);
    // 12 in the first event, 11 later: 11.
    case.events = vec![
        Event::withheld(1, Market::DAY_AHEAD, 99, &[]),
        Event::withheld(0, Market::DAY_AHEAD, 12, &[]),
    ];
    assert_eq!(number(&case, &[]), 11);
    // 14 in the first event, 13 in the second: 13.
    case.events = vec![
        Event::bids(0, Market::DAY_AHEAD, 12, 1, 0, &[]),
        Event::withheld(1, Market::DAY_AHEAD, 12, &[(0, 5_001, 0)]),
    ];
    assert_eq!(number(&case, &[]), 13);
    // 8 comes before 9, and 7 before 8.
    let mut case = full();
    case.past[0].kind = Kind(2);
    assert_eq!(number(&case, &[reference(12, 9, 0)]), 8);
    case.references[0].component = Component(9);
    assert_eq!(number(&case, &[reference(12, 9, 0)]), 7);
    // 5 of the events comes before 6 of the units; 15 is last.
    let mut case = full();
    case.references.clear();
    assert_eq!(number_of(&case.to_bytes(), &[], 0), 14);
    case.units[0].area = 2;
    assert_eq!(number_of(&case.to_bytes(), &[], 0), 6);
    case.past = vec![past_withheld(0, Market::DAY_AHEAD, 0); 257];
    assert_eq!(number_of(&case.to_bytes(), &[], 0), 5);
}

#[test]
fn missing_references() {
    let bids = |component| Case {
        units: vec![unit(12, 7)],
        references: (0..9)
            .map(|component| reference(12, component, 1))
            .collect(),
        events: vec![Event::bids(0, Market::DAY_AHEAD, 12, component, 0, &[]).with_impact(0)],
        ..Case::default()
    };
    for component in 0..9_u8 {
        let case = bids(component);
        assert_eq!(number(&case, &[]), 0);
        // A correction without the entry, although the case has r, and no hour is mitigated.
        let other = [reference(12, (component + 1) % 9, 1)];
        let reads = matches!(component, 0 | 1 | 3);
        assert_eq!(
            number(&case, &other),
            if reads { 14 } else { 0 },
            "component {component}"
        );
        // The correction doesn't stand in for r.
        let mut without = case.clone();
        without
            .references
            .retain(|reference| reference.component.0 != component);
        assert_eq!(number(&without, &[reference(12, component, 1)]), 14);
    }
}

#[test]
fn event_order_by_each_field() {
    let base = Event::bids(5, Market::REAL_TIME, 12, 3, 0, &[]);
    let withheld = Event::withheld(5, Market::REAL_TIME, 13, &[]);
    let rising = [
        // A smaller day outweighs every later field.
        (Event { day: 4, ..base }, withheld),
        (withheld, base),
        (
            Event {
                market: Market::DAY_AHEAD,
                unit: 13,
                ..base
            },
            base,
        ),
        (base, Event::bids(5, Market::REAL_TIME, 13, 0, 0, &[])),
        (Event::bids(5, Market::REAL_TIME, 12, 2, 0, &[]), base),
    ];
    for (first, second) in rising {
        let mut case = Case {
            units: vec![unit(12, 7), unit(13, 7)],
            references: vec![
                reference(12, 2, 1),
                reference(12, 3, 1),
                reference(13, 0, 1),
                reference(13, 3, 1),
            ],
            events: vec![first, second],
            ..Case::default()
        };
        assert_eq!(number(&case, &[]), 0);
        case.events.reverse();
        assert_eq!(number(&case, &[]), 11);
    }
}

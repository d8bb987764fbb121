//! Events beside each other, beside their units and references, and the length of the rows.

use cases::case::{CELL_BYTES, EVENT_HEAD_BYTES, Section};
use cases::{Case, Event, Input, Market, Reference, Unit};

use crate::{Checks, at_most, place, reference, references, unit};

#[test]
fn order_of_the_events() {
    let mut checks = Checks::default();
    // Rising, and each with lower numbers in what is compared later.
    let rising = [
        Event::withheld(1, Market::DAY_AHEAD, 13, &[]),
        Event::withheld(1, Market::REAL_TIME, 12, &[]),
        Event::withheld(1, Market::REAL_TIME, 13, &[]),
        Event::dispatch(1, 12, &[]),
        Event::fuel(1, Market::DAY_AHEAD, 12, (0, 0, 0), &[]),
        Event::fuel(1, Market::REAL_TIME, 12, (0, 0, 0), &[]),
        Event::bids(1, Market::DAY_AHEAD, 12, 8, 0, &[]),
        Event::bids(1, Market::DAY_AHEAD, 13, 0, 0, &[]),
        Event::bids(1, Market::DAY_AHEAD, 13, 1, 0, &[]),
        Event::bids(1, Market::REAL_TIME, 12, 0, 0, &[]),
        Event::withheld(2, Market::DAY_AHEAD, 12, &[]),
        Event::withheld(256, Market::DAY_AHEAD, 12, &[]),
        Event::withheld(36_352, Market::DAY_AHEAD, 5, &[]),
        Event::withheld(36_352, Market::DAY_AHEAD, 12, &[]),
    ];
    let of = |events: Vec<Event>| {
        let mut case = Case {
            units: [5, 12, 13].map(unit).to_vec(),
            references: references(),
            ..Case::default()
        };
        case.events = events;
        Input::new(&case, &[])
    };
    checks.expect(&of(rising.to_vec()), 0, "rising");
    for first in 0..rising.len() {
        for second in 0..rising.len() {
            let number = if first < second { 0 } else { 11 };
            let input = of(vec![rising[first], rising[second]]);
            checks.expect(&input, number, &format!("events {first} and {second}"));
        }
        let mut twice = rising.to_vec();
        twice.insert(first, rising[first]);
        checks.expect(&of(twice), 11, "the same event twice");
        if first > 0 {
            let mut swapped = rising.to_vec();
            swapped.swap(first - 1, first);
            checks.expect(&of(swapped), 11, "two events swapped");
        }
    }
    // Another impact or cell makes no other event, and another period none that is looked at.
    let same = Event::withheld(2, Market::DAY_AHEAD, 12, &[(3, 1, 1)]).with_impact(0);
    checks.expect(&of(vec![rising[10], same]), 11, "the same key");
    let of_period_9 = of(vec![rising[10], same.in_period(9)]);
    checks.expect(&of_period_9, 19, "the same key in another period");
    checks.done(452, "order of the events");
}

#[test]
fn capability_of_the_unit() {
    let mut checks = Checks::default();
    for capability in [1, 4_999, 50_000] {
        for event in [
            Event::withheld(1, Market::DAY_AHEAD, 12, &[]),
            Event::withheld(1, Market::REAL_TIME, 12, &[]),
            Event::dispatch(1, 12, &[]),
        ] {
            // The other units have another capability.
            let case = Case {
                units: vec![
                    Unit {
                        capability: 50_000,
                        ..unit(11)
                    },
                    Unit {
                        capability,
                        ..unit(12)
                    },
                    Unit {
                        capability: 1,
                        ..unit(13)
                    },
                ],
                events: vec![event],
                ..Case::default()
            };
            let input = Input::new(&case, &[]);
            for hour in 0..24 {
                let at = place(&input, Section::Events, 0) + EVENT_HEAD_BYTES;
                let values = at_most(capability.into(), 13);
                checks.field(&input, at + CELL_BYTES * hour, 4, &values, "a");
            }
        }
    }
    checks.done(2_592, "capability of the unit");
}

#[test]
fn references_of_bids() {
    let mut checks = Checks::default();
    for market in [Market::DAY_AHEAD, Market::REAL_TIME] {
        for component in 0..9 {
            let of = |references: Vec<Reference>, correction: &[Reference]| {
                let case = Case {
                    units: [12, 13].map(unit).to_vec(),
                    references,
                    events: vec![Event::bids(1, market, 12, component, 0, &[])],
                    ..Case::default()
                };
                Input::new(&case, correction)
            };
            let own = reference(12, component);
            let others: Vec<Reference> = references()
                .into_iter()
                .filter(|other| *other != own)
                .collect();
            let read = matches!(component, 0 | 1 | 3);
            let without_c = if read { 14 } else { 0 };
            let what = format!("component {component}");
            checks.expect(&of(vec![own], &[]), 0, &what);
            checks.expect(&of(Vec::new(), &[]), 14, &what);
            checks.expect(&of(others.clone(), &[]), 14, &what);
            checks.expect(&of(vec![own], &[own]), 0, &what);
            // A correction does not stand in for the case's own reference, nor that for it.
            checks.expect(&of(Vec::new(), &[own]), 14, &what);
            checks.expect(&of(others.clone(), &[own]), 14, &what);
            checks.expect(&of(vec![own], &others), without_c, &what);
            let other_unit = reference(13, component);
            checks.expect(&of(vec![own], &[other_unit]), without_c, &what);
            checks.expect(&of(vec![other_unit], &[]), 14, &what);
        }
    }
    // Other kinds read none.
    for event in [
        Event::withheld(1, Market::DAY_AHEAD, 12, &[]),
        Event::dispatch(1, 12, &[]),
        Event::fuel(1, Market::DAY_AHEAD, 12, (0, 0, 0), &[]),
    ] {
        let case = Case {
            units: vec![unit(12)],
            events: vec![event],
            ..Case::default()
        };
        checks.expect(&Input::new(&case, &[]), 0, "no reference read");
    }
    checks.done(330, "references of bids");
}

#[test]
fn length_of_the_rows() {
    let mut checks = Checks::default();
    for count in [0, 1, 2, 3, 64, 199, 200] {
        let case = Case {
            units: vec![unit(12)],
            events: (0..count)
                .map(|day| Event::withheld(day, Market::DAY_AHEAD, 12, &[]))
                .collect(),
            ..Case::default()
        };
        let mut input = Input::new(&case, &[]);
        let needed = 128 * count as usize;
        for (length, number) in [
            (needed, 0),
            (needed + 1, 0),
            (needed + 128, 0),
            (usize::MAX, 0),
            (1 << 32, 0),
        ] {
            input.rows_len = length;
            checks.expect(&input, number, "rows");
        }
        if count > 0 {
            for length in [needed - 1, needed - 127, needed - 128, 0, 1, 127] {
                input.rows_len = length;
                checks.expect(&input, 15, "short rows");
            }
        }
    }
    checks.done(142, "length of the rows");
}

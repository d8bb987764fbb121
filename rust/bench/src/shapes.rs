//! The single cases: generated ones, the shipped one, and shapes that hold one kind or the longest ways. A full file of
//! version 2 has room for fewer units and references beside its 200 events, so that its shapes are their own.

use cases::case::{EVERY_HOUR, LARGEST_FILE, Version};
use cases::growth::STEPS;
use cases::{Case, Component, Event, Generated, Kind, Market, Past, Reference, Unit};

/// How many of the generated cases are timed alone.
const ALONE: usize = 5;

/// The day of a shape's first events, 26 November 2021: its last ones are in the same capability period.
const FIRST_DAY: u32 = 8_000;

/// Every single case of a version with its name, the generated ones from `full`, the first of its seed.
pub fn all(version: Version, full: &[Generated]) -> Vec<(String, Generated)> {
    let mut shapes: Vec<_> = full[..ALONE]
        .iter()
        .enumerate()
        .map(|(place, generated)| (format!("generated {place}"), generated.clone()))
        .collect();
    shapes.push(("last unit".to_string(), bids_of_the_last_unit(version)));
    shapes.push(("worked".to_string(), worked_example(version)));
    for kind in 1..=4 {
        for count in STEPS {
            let shape = one_kind(version, kind, count as u32);
            shapes.push((format!("kind {kind}, {count}"), shape));
        }
    }
    shapes.push(("mixed 200".to_string(), mixed(version)));
    shapes
}

/// The number of the unit at a place: in version 2 it has six digits.
fn number(version: Version, place: u32) -> u32 {
    match version {
        Version::One => place,
        Version::Two => 900_000 + place,
    }
}

/// A case with no correction, its events in order.
fn without_correction(mut case: Case) -> Generated {
    case.sort_events();
    Generated {
        case,
        correction: Vec::new(),
    }
}

/// The shipped case: one withheld event.
fn worked_example(version: Version) -> Generated {
    let unit = |place, capability| Unit {
        unit: number(version, place),
        group: 1,
        capability,
        ..Unit::default()
    };
    let cells = [(0, 501, 4_000)];
    without_correction(Case {
        version,
        units: vec![unit(12, 5_000), unit(13, 15_000)],
        events: vec![Event::withheld(
            FIRST_DAY,
            Market::DAY_AHEAD,
            number(version, 12),
            &cells,
        )],
        ..Case::default()
    })
}

/// An event of a kind in every hour; of kind 4, component by component.
fn event(kind: u8, day: u32, unit: u32, component: u8) -> Event {
    let hours = 0..24;
    match kind {
        1 => {
            let cells: Vec<_> = hours.map(|hour| (hour, 501, 4_000)).collect();
            Event::withheld(day, Market::DAY_AHEAD, unit, &cells)
        }
        2 => {
            let cells: Vec<_> = hours.map(|hour| (hour, 501, 4_000)).collect();
            Event::dispatch(day, unit, &cells)
        }
        3 => {
            let cells: Vec<_> = hours.map(|hour| (hour, 501, 4_000)).collect();
            Event::fuel(day, Market::DAY_AHEAD, unit, (EVERY_HOUR, 1_000, 0), &cells)
        }
        _ => {
            let cells: Vec<_> = hours.map(|hour| (hour, 9_001, 100, 10)).collect();
            Event::bids(day, Market::DAY_AHEAD, unit, component, 0, &cells)
        }
    }
}

/// One group's events of one kind: as many units to a day as fit, the largest party-days there can be; of kind 4 all
/// nine components of unit after unit, day after day, beside as many references and past entries that 200 of them are a
/// file of exactly 65,000 bytes.
fn one_kind(version: Version, kind: u8, count: u32) -> Generated {
    let (units, references, past) = match (kind, version) {
        (4, Version::One) => (27, 238, 1),
        (4, Version::Two) => (12, 108, 11),
        (_, Version::One) => (64, 0, 0),
        (_, Version::Two) => (63, 0, 0),
    };
    let place = |i: u32| {
        if kind == 4 {
            (i / references, i % references / 9, (i % 9) as u8)
        } else {
            (i / units, i % units, 0)
        }
    };
    let shape = without_correction(Case {
        version,
        units: units_of(version, units, 1),
        references: references_of(version, references),
        past: past_of(past),
        events: (0..count)
            .map(|i| {
                let (day, unit, component) = place(i);
                event(kind, FIRST_DAY + day, number(version, unit), component)
            })
            .collect(),
    });
    let fills = count == 200 && (kind == 4 || version == Version::Two);
    assert!(!fills || shape.input().file.len() == LARGEST_FILE);
    shape
}

/// 200 events over days of one each of 20 units in 4 groups, in version 2 of 12 in 3, with every kind in every group on
/// every day.
fn mixed(version: Version) -> Generated {
    let (units, groups) = match version {
        Version::One => (20, 4),
        Version::Two => (12, 3),
    };
    let of = |i: u32| {
        let unit = number(version, i % units);
        let day = FIRST_DAY + i / units;
        event((i % 4 + 1) as u8, day, unit, (i % 9) as u8)
    };
    without_correction(Case {
        version,
        units: units_of(version, units, groups),
        references: references_of(version, 9 * units),
        events: (0..200).map(of).collect(),
        ..Case::default()
    })
}

/// Units in groups of neighbours.
fn units_of(version: Version, count: u32, groups: u32) -> Vec<Unit> {
    (0..count)
        .map(|place| Unit {
            unit: number(version, place),
            group: (place * groups / count) as u16,
            capability: 5_000,
            ..Unit::default()
        })
        .collect()
}

/// Withheld past entries of the first group.
fn past_of(count: usize) -> Vec<Past> {
    vec![Past::of_day(0, Kind::WITHHELD, Market::DAY_AHEAD, FIRST_DAY); count]
}

fn reference(version: Version, place: u32, component: u8) -> Reference {
    Reference {
        unit: number(version, place),
        component: Component(component),
        value: 1_000,
    }
}

/// References of all nine components of one unit after the other.
fn references_of(version: Version, count: u32) -> Vec<Reference> {
    (0..count)
        .map(|place| reference(version, place / 9, (place % 9) as u8))
        .collect()
}

/// 200 bids of the last of 64 units on all nine components, with 127 references and 256 corrections, in version 2 of the
/// last of 48 with 34 references: the longest way to every unit and reference. A past entry fills the 65,000 bytes.
fn bids_of_the_last_unit(version: Version) -> Generated {
    let (units, references) = match version {
        Version::One => (64, 127),
        Version::Two => (48, 34),
    };
    let last = units - 1;
    let references_to = |count: u32| -> Vec<Reference> {
        let of_the_last = (0..9).map(|component| reference(version, last, component));
        let before = references_of(version, count - 9);
        before.into_iter().chain(of_the_last).collect()
    };
    let bids = |place: u32| {
        let (day, component) = (FIRST_DAY + place / 9, (place % 9) as u8);
        let unit = number(version, last);
        Event::bids(day, Market::DAY_AHEAD, unit, component, 1_000, &[])
    };
    let shape = Generated {
        case: Case {
            version,
            units: units_of(version, units, 1),
            references: references_to(references),
            past: past_of(1),
            events: (0..200).map(bids).collect(),
        },
        correction: references_to(256),
    };
    assert_eq!(shape.input().file.len(), LARGEST_FILE);
    shape
}

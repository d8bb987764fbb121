//! Unit numbers that the tuned settlement looks for in one place: it keeps them in a table of 256 slots, each from the
//! slot on that the high byte of a product names.

use cases::{Case, Component, Event, Generated, Market, Random, Reference, Unit, Version};
use second::Outcome;

use crate::Count;

/// The slot from which a number is looked for.
fn slot(number: u32) -> u32 {
    number.wrapping_mul(0x9E37_79B1) >> 24
}

/// A case with these units, and an event of each.
fn case_of(numbers: &[u32]) -> Generated {
    let unit = |(place, &unit): (usize, &u32)| Unit {
        unit,
        group: place as u16,
        capability: 1_000 + place as u32,
        ..Unit::default()
    };
    let event = |(place, &unit): (usize, &u32)| {
        let hour = place % 24;
        let withheld = 90 + place as u32;
        Event::withheld(8_000, Market::DAY_AHEAD, unit, &[(hour, withheld, 4_000)])
    };
    Generated {
        case: Case {
            version: Version::Two,
            units: numbers.iter().enumerate().map(unit).collect(),
            events: numbers.iter().enumerate().map(event).collect(),
            ..Case::default()
        },
        correction: Vec::new(),
    }
}

#[test]
fn numbers_of_one_slot() {
    let mut random = Random::new(309);
    let mut count = Count::default();
    // From the last slot the table goes on with the first.
    for from in [128, 255] {
        let all: Vec<u32> = (0..1_000_000)
            .filter(|&number| slot(number) == from)
            .collect();
        let numbers: Vec<u32> = all
            .iter()
            .step_by(all.len() / 64)
            .copied()
            .take(64)
            .collect();
        let good = case_of(&numbers);
        count.settle(&mut random, &good.input(), &format!("slot {from}"));
        // Others of the slot, and such as end in the same two bytes as a listed one.
        let same_end = |&number: &u32| (0..16).map(move |high| high << 16 | number & 0xFFFF);
        let others = all.iter().copied().step_by(97);
        let others = others.chain(numbers.iter().flat_map(same_end));
        for number in others.filter(|number| *number < 1_000_000 && !numbers.contains(number)) {
            let mut unlisted = good.clone();
            unlisted.case.events[7].unit = number;
            unlisted.case.sort_events();
            let outcome = count.settle(&mut random, &unlisted.input(), "an event");
            assert_eq!(outcome, Outcome::Refused(12), "{number}");
            let mut unlisted = good.clone();
            unlisted.case.references.push(Reference {
                unit: number,
                component: Component(0),
                value: 1,
            });
            assert_eq!(
                count.number(&unlisted.input(), "a reference"),
                7,
                "{number}"
            );
        }
    }
    println!("{count:?}");
    assert_eq!((count.accepted, count.with_penalties), (2, 2));
    assert!(count.refused > 2_000);
}

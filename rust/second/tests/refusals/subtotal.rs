//! The refusals of the subtotal: those of the case alone, then 10 but for a fuel event.

use std::collections::BTreeSet;

use cases::faults::{faulty_cases, numbers_in};
use cases::{Case, Event, Market, Random, Version};
use second::{penalty_working, refusal, subtotal};

use crate::common::version_2::copy_of;
use crate::common::{correction_of, reference, unit};

/// An event of each kind, with bids of every component that reads c. The third is the fuel event: 10 × 5 + 3 × (−2).
fn every_kind() -> Case {
    let bids = |component| Event::bids(8_000, Market::DAY_AHEAD, 12, component, 0, &[]);
    Case {
        units: vec![unit(12, 7)],
        references: [0, 1, 3]
            .map(|component| reference(12, component, 2_000))
            .to_vec(),
        events: vec![
            Event::withheld(8_000, Market::DAY_AHEAD, 12, &[]),
            Event::dispatch(8_000, 12, &[]),
            Event::fuel(8_000, Market::DAY_AHEAD, 12, (1, 5, 0), &[(0, 3, -2)]),
            bids(0),
            bids(1),
            bids(3),
        ],
        ..Case::default()
    }
}

/// Every number that an event can have, and some beyond, three of them with the lower bytes of 2.
fn event_numbers() -> impl Iterator<Item = usize> {
    (0..=200).chain([258, 65_538, (1 << 32) + 2, usize::MAX])
}

/// What the call must give for each event number, in both versions of a version 1 file.
#[track_caller]
fn expect(file: &[u8], expected: impl Fn(usize) -> Result<i64, u8>) {
    for file in [file, &copy_of(file)] {
        for event in event_numbers() {
            assert_eq!(subtotal(file, event), expected(event), "event {event}");
        }
    }
}

#[test]
fn ten_but_for_a_fuel_event() {
    expect(&every_kind().to_bytes(), |event| {
        if event == 2 { Ok(44) } else { Err(10) }
    });
    expect(&Case::default().to_bytes(), |_| Err(10));
}

/// Puts a fault into a case.
type Put = fn(&mut Case);

#[test]
fn late_numbers_come_before_10() {
    let faults: [(u8, Put); 6] = [
        (18, |case| case.events[5].day = 36_525),
        (19, |case| case.events[5].period += 1),
        (11, |case| case.events.swap(4, 5)),
        (12, |case| case.events[5].unit = 99),
        (13, |case| {
            case.events[0] = Event::withheld(8_000, Market::DAY_AHEAD, 12, &[(23, 5_001, 0)]);
        }),
        (14, |case| case.references.truncate(2)),
    ];
    for (number, put) in faults {
        let mut case = every_kind();
        put(&mut case);
        expect(&case.to_bytes(), |_| Err(number));
    }
}

#[test]
fn the_case_is_taken_alone() {
    let file = every_kind().to_bytes();
    // A correction without c of components 1 and 3, one of 7 bytes, and no rows are refused elsewhere.
    let correction = correction_of(&[reference(12, 0, 1)]);
    assert_eq!(penalty_working(&file, &correction, 2), Err(14));
    assert_eq!(penalty_working(&file, &[0; 7], 2), Err(8));
    assert_eq!(refusal(&file, &[], 0), 15);
    // Without a correction c is the case's own.
    assert_eq!(subtotal(&file, 2), Ok(44));
}

#[test]
fn every_number_of_a_case_but_8_and_15() {
    for version in [Version::One, Version::Two] {
        let mut seen = BTreeSet::new();
        let mut of_the_correction = 0;
        for (fault, input) in faulty_cases(version, &mut Random::new(51)) {
            let number = refusal(&input.file, &[], usize::MAX);
            let mut figures = (0..30)
                .chain([usize::MAX])
                .map(|event| subtotal(&input.file, event));
            if number == 0 {
                assert!([8, 14].contains(&fault.number), "{}", fault.name);
                assert!(figures.any(|figure| figure.is_ok()), "{}", fault.name);
                of_the_correction += 1;
            } else {
                assert_eq!(number, fault.number, "{}", fault.name);
                assert!(figures.all(|figure| figure == Err(number)), "{number}");
                seen.insert(number);
            }
        }
        let numbers = numbers_in(version).filter(|number| ![8, 15].contains(number));
        assert_eq!(seen, numbers.collect::<BTreeSet<u8>>());
        assert!(of_the_correction >= 20, "{of_the_correction}");
    }
}

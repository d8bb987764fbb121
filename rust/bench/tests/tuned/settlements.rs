//! Whole settlements.

use bench::shapes;
use cases::faults::{faults_in, faults_of, pairs_in};
use cases::generator::{any_case_in, case, random_bytes_in};
use cases::{
    Case, Component, Event, Generated, Input, Kind, Market, Past, Random, Reference, Size, Unit,
    Version, Wanted, growth,
};
use second::Outcome;

use crate::Count;

#[test]
fn accepted_cases() {
    for version in Version::ALL {
        let mut random = Random::new(301);
        let mut count = Count::default();
        for (size, cases) in [
            (Size::Small, 16_000),
            (Size::Medium, 3_000),
            (Size::Full, 200),
        ] {
            for place in 0..cases {
                let mut input = case(&mut random, Wanted::of(size).in_version(version)).input();
                if random.chance(1, 3) {
                    input.rows_len += random.below(1_000);
                }
                let what = format!("{version:?}, {size:?} {place}");
                count.settle(&mut random, &input, &what);
            }
        }
        println!("{version:?}: {count:?}");
        assert_eq!((count.accepted, count.refused), (19_200, 0));
        assert!(count.rows > 200_000);
        assert!(count.with_penalties > 5_000 && count.with_make_ups > 300);
        assert!(count.corrected > 5_000);
        assert_eq!(count.copies > 0, version == Version::One);
    }
}

#[test]
fn cases_of_every_growth_step() {
    for version in Version::ALL {
        let mut random = Random::new(305);
        let mut count = Count::default();
        let full = growth::full_cases_in(version);
        for events in growth::STEPS {
            for (place, full) in full.iter().enumerate() {
                let what = format!("{version:?}, {events} events of case {place}");
                let input = growth::with_events(full, events).input();
                count.settle(&mut random, &input, &what);
            }
        }
        println!("{version:?}: {count:?}");
        assert_eq!((count.accepted, count.rows), (160, 40 * 375));
        assert!(count.with_penalties > 100 && count.with_make_ups > 20 && count.corrected > 50);
    }
}

#[test]
fn shapes_of_the_benchmark() {
    for version in Version::ALL {
        let mut random = Random::new(306);
        let mut count = Count::default();
        for (name, shape) in shapes::all(version, &growth::full_cases_in(version)) {
            count.settle(&mut random, &shape.input(), &format!("{version:?}, {name}"));
        }
        println!("{version:?}: {count:?}");
        assert_eq!((count.accepted, count.refused), (24, 0));
        assert!(count.with_penalties > 12 && count.corrected > 0);
    }
}

/// A case with as many units, references, past entries and corrections as there may be, and with events of every kind.
fn fullest(version: Version) -> Generated {
    let reference = |place: u32| Reference {
        unit: place / 4,
        component: Component((place % 4) as u8),
        value: 1_000,
    };
    let past = |place: u32| {
        let kind = if place.is_multiple_of(3) {
            Kind::FUEL
        } else {
            Kind::WITHHELD
        };
        let market = Market((place % 2) as u8);
        Past::of_day((place % 5) as u16, kind, market, 7_750 + place)
    };
    let events = |unit: u32| {
        let component = (unit % 4) as u8;
        [
            Event::withheld(8_000, Market::DAY_AHEAD, unit, &[(3, 600, 4_000)]),
            Event::dispatch(8_000, unit, &[(4, 700, 5_000)]),
            Event::fuel(8_000, Market::DAY_AHEAD, unit, (1, 70_000, 0), &[]),
            Event::bids(8_000, Market::DAY_AHEAD, unit, component, 9_000, &[]),
        ]
    };
    let mut case = Case {
        version,
        units: (0..64)
            .map(|unit| Unit {
                unit,
                group: (unit % 5) as u16,
                capability: 5_000,
                ..Unit::default()
            })
            .collect(),
        references: (0..256).map(reference).collect(),
        past: (0..256).map(past).collect(),
        events: (24..64).flat_map(events).collect(),
    };
    case.sort_events();
    Generated {
        correction: case.references.clone(),
        case,
    }
}

#[test]
fn as_many_records_as_there_may_be() {
    for version in Version::ALL {
        let mut random = Random::new(308);
        let mut count = Count::default();
        let full = fullest(version);
        count.settle(&mut random, &full.input(), "as many as there may be");
        assert_eq!((count.accepted, count.with_penalties), (1, 1));
        let (mut units, mut references, mut past, mut correction) =
            (full.clone(), full.clone(), full.clone(), full.clone());
        units.case.units.push(Unit {
            unit: 64,
            ..full.case.units[63]
        });
        let one_more = Reference {
            component: Component(4),
            ..full.case.references[255]
        };
        references.case.references.push(one_more);
        past.case.past.push(full.case.past[0]);
        correction.correction.push(one_more);
        for (more, number) in [(units, 5), (references, 5), (past, 5), (correction, 8)] {
            let outcome = count.settle(&mut random, &more.input(), "one more");
            assert_eq!(outcome, Outcome::Refused(number));
        }
        println!("{version:?}: {count:?}");
    }
}

/// A case with a fault, where it has a place for one.
fn with_fault(random: &mut Random, version: Version, input: &Input, number: u8) -> Option<Input> {
    let fault = random.pick(&faults_of(version, number));
    fault.put_into(input, random)
}

#[test]
fn refused_cases() {
    for version in Version::ALL {
        let mut random = Random::new(302);
        let mut count = Count::default();
        for _ in 0..20 {
            let input = any_case_in(version, &mut random).input();
            for fault in faults_in(version) {
                if let Some(faulty) = fault.put_into(&input, &mut random) {
                    let outcome = count.settle(&mut random, &faulty, fault.name);
                    assert_eq!(outcome, Outcome::Refused(fault.number), "{}", fault.name);
                }
            }
        }
        for place in 0..3_000 {
            let input = random_bytes_in(version, &mut random);
            count.settle(&mut random, &input, &format!("{version:?}, bytes {place}"));
        }
        println!("{version:?}: {count:?}");
        assert!(count.refused > 3_000 && count.accepted > 100);
    }
}

#[test]
fn pairs_of_faults() {
    for version in Version::ALL {
        let mut random = Random::new(304);
        let mut count = Count::default();
        for pair in pairs_in(version) {
            let before = count.inputs;
            for _ in 0..30 {
                let input = any_case_in(version, &mut random).input();
                // The one that is checked first is put in last, since it may break the layout.
                let later = with_fault(&mut random, version, &input, pair.1);
                let sooner = later.and_then(|one| with_fault(&mut random, version, &one, pair.0));
                let Some(faulty) = sooner else {
                    continue;
                };
                let outcome = count.settle(&mut random, &faulty, &format!("{pair:?}"));
                assert_eq!(outcome, Outcome::Refused(pair.0), "{pair:?}");
            }
            assert!(count.inputs > before, "{pair:?}");
        }
        println!("{version:?}: {count:?}");
    }
}

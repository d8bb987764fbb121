//! The largest figures that a case can have, and counts of every place.

use attachment_h::{Cents, Component, Kind, Market, Multiplier};
use cases::case::EVERY_HOUR;
use cases::{Case, Event, Input, Past, Random, Reference, Unit};

use crate::{Inputs, Worked, bits_of, both};

fn unit(unit: u32) -> Unit {
    Unit {
        unit,
        group: 7,
        capability: 50_000,
        ..Unit::default()
    }
}

fn past(kind: Kind, day: u32) -> Past {
    Past::of_day(7, kind, Market::DAY_AHEAD, day)
}

/// The same a and b in every hour.
fn all_day<A: Copy, B: Copy>(a: A, b: B) -> [(usize, A, B); 24] {
    std::array::from_fn(|hour| (hour, a, b))
}

fn worked(case: &Case, correction: &[Reference], event: usize) -> Worked {
    let inputs = Inputs::of(Input::new(case, correction));
    let worked = both(&mut Random::new(941), &inputs, event, "at an edge").expect("accepted");
    assert_eq!(worked.versions, 2);
    worked
}

#[test]
fn largest_withheld() {
    let cells = all_day(50_000, 1_000_000);
    let case = Case {
        units: vec![unit(0)],
        past: vec![past(Kind::WITHHELD, 0); 3],
        events: vec![Event::withheld(0, Market::DAY_AHEAD, 0, &cells)],
        ..Case::default()
    };
    let penalty = worked(&case, &[], 0).penalty;
    assert_eq!(penalty.hours, [50_000_000_000; 24]);
    assert_eq!(penalty.amount, 1_200_000_000_000);
    // 6 × 1,200,000,000,000 / 20
    assert_eq!(penalty.multiplier, Multiplier(6));
    assert_eq!(penalty.penalty, Cents(360_000_000_000));
}

#[test]
fn largest_dispatch() {
    let case = Case {
        units: vec![unit(65_535)],
        events: vec![Event::dispatch(
            36_524,
            65_535,
            &all_day(50_000, 100_000_000),
        )],
        ..Case::default()
    };
    let penalty = worked(&case, &[], 0).penalty;
    assert_eq!(penalty.hours, [100_000_000; 24]);
    assert_eq!(penalty.revenue, 2_400_000_000);
    assert_eq!(penalty.penalty, Cents(3_600_000_000));
}

/// 64 units whose fuel data changed everything by as much as can be, up or down.
fn fuel_case(sign: i32) -> Case {
    let changes = (EVERY_HOUR, sign * 1_000_000_000, 1_000_000_000);
    let cells = all_day(50_000, sign * 1_000_000);
    Case {
        units: (0..64).map(unit).collect(),
        past: vec![past(Kind::FUEL, 816)],
        events: (0..64)
            .map(|unit| Event::fuel(1_000, Market::DAY_AHEAD, unit, changes, &cells))
            .collect(),
        ..Case::default()
    }
}

#[test]
fn largest_fuel() {
    // Each unit: 10 × 1,000,000,000 + 24 × 50,000 × 1,000,000. M is 3, since day 816, 27 March 2002, is six
    // months before day 1,000.
    let e = 64 * 1_210_000_000_000;
    let t = 64_000_000_000;
    for event in [0, 63] {
        let penalty = worked(&fuel_case(1), &[], event).penalty;
        assert_eq!((penalty.row, penalty.multiplier), (0, Multiplier(3)));
        assert_eq!((penalty.e_positive, penalty.e_negative), (e, 0));
        assert_eq!((penalty.t, penalty.x), (t, 3 * e + 20 * t));
        assert_eq!(penalty.penalty, Cents((3 * e + 20 * t) / 20));
        assert_eq!(penalty.hours, [50_000_000_000; 24]);
        assert_eq!(penalty.losses, [0; 24]);

        let penalty = worked(&fuel_case(-1), &[], event).penalty;
        assert_eq!((penalty.e_positive, penalty.e_negative), (0, e));
        assert_eq!((penalty.t, penalty.x, penalty.below), (t, 0, true));
        assert_eq!(penalty.hours, [0; 24]);
        assert_eq!(penalty.losses, [50_000_000_000; 24]);
    }
}

#[test]
fn largest_make_up() {
    let reference = |value| Reference {
        unit: 9,
        component: Component::ENERGY,
        value,
    };
    let cells: [_; 24] = std::array::from_fn(|hour| (hour, 1_000_000, -1_000_000, 50_000));
    let case = Case {
        units: vec![unit(9)],
        references: vec![reference(0)],
        events: vec![Event::bids(0, Market::REAL_TIME, 9, 0, 0, &cells)],
        ..Case::default()
    };
    let make_up = worked(&case, &[reference(1_000_000)], 0).make_up;
    // 50,000 × (1,000,000 + 1,000,000)
    assert_eq!(make_up.hours, [100_000_000_000; 24]);
    assert_eq!(make_up.tenths, 2_400_000_000_000);
    assert_eq!(make_up.make_up, Cents(240_000_000_000));
}

/// A withheld event with one flagged hour on each of some days.
fn instances_of(days: impl Iterator<Item = u32>) -> Vec<Event> {
    days.map(|day| Event::withheld(day, Market::DAY_AHEAD, 0, &[(0, 50_000, 1)]))
        .collect()
}

/// The first days of periods 42, 43 and 44: 1 November 2020, 1 May and 1 November 2021.
const FIRST_DAYS: [u32; 3] = [7_610, 7_791, 7_975];

#[test]
fn every_past_entry() {
    let case = Case {
        units: vec![unit(0)],
        past: (0..256)
            .map(|place| past(Kind::WITHHELD, FIRST_DAYS[place % 3]))
            .collect(),
        events: instances_of(8_000..8_002),
        ..Case::default()
    };
    let last = worked(&case, &[], 1);
    let all: Vec<usize> = (0..256).collect();
    assert_eq!(last.instances.three.past, all);
    let of_two: Vec<usize> = (0..256).filter(|place| place % 3 > 0).collect();
    assert_eq!(last.instances.two.past, of_two);
    // Itself, event 0 and the entries: 256, and 170 without those of period 42.
    assert_eq!((last.penalty.n3, last.penalty.n2), (258, 172));
    assert_eq!(bits_of(&case, 1)[25..57], [0xFF; 32]);
}

#[test]
fn every_event() {
    // A hundred of period 42, and a hundred of period 44, two after it.
    let [first, _, last] = FIRST_DAYS;
    let case = Case {
        units: vec![unit(0)],
        events: instances_of((first..first + 100).chain(last..last + 100)),
        ..Case::default()
    };
    for event in 0..200 {
        let counted = worked(&case, &[], event).instances;
        let three: Vec<usize> = (0..event).collect();
        let two: Vec<usize> = (event / 100 * 100..event).collect();
        assert_eq!((counted.three.events, counted.two.events), (three, two));
    }
    // Events 0 to 98, of one period, and 0 to 198, of which N2 counts from 100 on.
    let out = bits_of(&case, 99);
    assert_eq!((&out[..12], out[12]), (&[0xFF; 12][..], 0b0111));
    assert_eq!((&out[57..69], out[69]), (&[0xFF; 12][..], 0b0111));
    let out = bits_of(&case, 199);
    assert_eq!((&out[..24], out[24]), (&[0xFF; 24][..], 0b0111_1111));
    assert_eq!((&out[57..69], out[69]), (&[0; 12][..], 0b1111_0000));
    assert_eq!((&out[70..81], out[81]), (&[0xFF; 11][..], 0b0111_1111));
}

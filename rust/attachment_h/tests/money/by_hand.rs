//! A small case of each kind, worked out with a pencil.

use attachment_h::{Cents, Component, INSTANCES_LENGTH, Kind, Market, Mask, Multiplier};
use cases::{Case, Event, Input, Past, Random, Reference, Unit};

use crate::{Inputs, Worked, bits_of, both};

/// A unit of group 7 outside of Constrained Areas, with 15 × its response rate at 450.
fn unit(unit: u32, capability: u32) -> Unit {
    Unit {
        unit,
        group: 7,
        capability,
        response_rate: 30,
        ..Unit::default()
    }
}

fn reference(component: u8, value: u32) -> Reference {
    Reference {
        unit: 12,
        component: Component(component),
        value,
    }
}

/// The workings of all events of an accepted case.
fn workings(case: &Case, correction: &[Reference]) -> Vec<Worked> {
    let mut random = Random::new(931);
    let inputs = Inputs::of(Input::new(case, correction));
    let worked: Vec<Worked> = (0..case.events.len())
        .map(|event| both(&mut random, &inputs, event, "by hand").expect("accepted"))
        .collect();
    assert!(worked.iter().all(|worked| worked.versions == 2));
    worked
}

/// Terms in these hours, 0 in the others.
fn terms(some: &[(usize, u64)]) -> [u64; 24] {
    let mut terms = [0; 24];
    for &(hour, term) in some {
        terms[hour] = term;
    }
    terms
}

/// Units 12 and 13 have 5,000 and 15,000, so that 501 of unit 12 are flagged by 10 × a and 500 are not, and 500
/// are a fortieth of G. Period 42 ends with day 7,790, period 43 with day 7,974 and period 44 with day 8,155.
fn withheld_case() -> Case {
    let (withheld, day_ahead) = (Kind::WITHHELD, Market::DAY_AHEAD);
    let cells = [
        (0, 501, 4_005),
        (1, 600, -100),
        (2, 500, 9_000),
        (23, 601, 11),
    ];
    Case {
        units: vec![unit(12, 5_000), unit(13, 15_000)],
        past: vec![
            Past::of_day(7, withheld, day_ahead, 7_700),
            Past::of_day(7, withheld, day_ahead, 7_900),
            // A fuel entry, one of another group, one of the other market, one of a later period.
            Past::of_day(7, Kind::FUEL, day_ahead, 7_999),
            Past::of_day(8, withheld, day_ahead, 7_999),
            Past::of_day(7, withheld, Market::REAL_TIME, 7_999),
            Past::of_day(7, withheld, day_ahead, 8_200),
        ],
        events: vec![
            Event::withheld(7_960, day_ahead, 12, &[(0, 501, 4_000)]).with_impact(0),
            Event::withheld(7_970, day_ahead, 12, &[(0, 501, 4_000)]),
            Event::withheld(8_000, day_ahead, 12, &cells),
        ],
        ..Case::default()
    }
}

#[test]
fn withheld_terms() {
    let worked = workings(&withheld_case(), &[]);
    // 501 × 4,000, and no instance without impact.
    let first = &worked[0].penalty;
    assert_eq!((first.kind, first.row), (Kind::WITHHELD, 0));
    assert_eq!(
        (first.amount, first.hours),
        (2_004_000, terms(&[(0, 2_004_000)]))
    );
    assert_eq!(
        (first.n3, first.n2, first.multiplier),
        (0, 0, Multiplier(0))
    );
    assert_eq!(first.penalty, Cents(0));
    // Both entries are in both windows, 41 to 43 and 42 to 43: 4 × 2,004,000 / 20.
    let second = &worked[1].penalty;
    assert_eq!(
        (second.n3, second.n2, second.multiplier),
        (3, 3, Multiplier(4))
    );
    assert_eq!((second.row, second.penalty), (1, Cents(400_800)));
    // 501 × 4,005 and 601 × 11; 600 at a price below 0 are 0, and 500 are not flagged. N3 counts event 1 and both
    // entries, N2 not the entry of period 42: 4 × 2,013,116 / 20 = 402,623.2.
    let third = &worked[2].penalty;
    let flagged = terms(&[(0, 2_006_505), (23, 6_611)]);
    assert_eq!((third.amount, third.hours), (2_013_116, flagged));
    assert_eq!(
        (third.n3, third.n2, third.multiplier),
        (4, 3, Multiplier(4))
    );
    assert_eq!((third.row, third.penalty), (2, Cents(402_623)));
    // A withheld event has nothing of a bid.
    assert_eq!(worked[2].make_up.reference, 0);
}

#[test]
fn withheld_counts() {
    let case = withheld_case();
    let worked = workings(&case, &[]);
    let (three, two) = (&worked[2].instances.three, &worked[2].instances.two);
    assert_eq!(
        (&three.events[..], &three.past[..]),
        (&[1][..], &[0, 1][..])
    );
    assert_eq!((&two.events[..], &two.past[..]), (&[1][..], &[1][..]));
    // Event 1 is bit 1 of the first byte, past entry j is bit j of byte 25; for N2 both stand 57 bytes on.
    let mut expected = [0; INSTANCES_LENGTH];
    for (byte, bits) in [(0, 0b10), (25, 0b11), (57, 0b10), (82, 0b10)] {
        expected[byte] = bits;
    }
    assert_eq!(bits_of(&case, 2), expected);
    assert_eq!(bits_of(&case, 0), [0; INSTANCES_LENGTH]);
}

#[test]
fn dispatch_terms() {
    // 451 and 1,001 are above 450, and 450 is not: 3 × (1,001 + 2,000) / 2 = 4,501.5.
    let cells = [(0, 451, 1_001), (1, 450, 5_000), (23, 1_001, 2_000)];
    let event = Event::dispatch(8_000, 12, &cells);
    let case = |impact| Case {
        units: vec![unit(12, 5_000)],
        events: vec![event.with_impact(impact)],
        ..Case::default()
    };
    for (impact, multiplier, penalty) in [(1, 3, 4_502), (0, 0, 0)] {
        let worked = workings(&case(impact), &[]).remove(0).penalty;
        assert_eq!((worked.kind, worked.row), (Kind::DISPATCH, 0));
        assert_eq!(worked.hours, terms(&[(0, 1_001), (23, 2_000)]));
        assert_eq!((worked.revenue, worked.amount), (3_001, 0));
        assert_eq!(worked.multiplier, Multiplier(multiplier));
        assert_eq!(worked.penalty, Cents(penalty));
    }
}

/// A party-day of two units, one of Real-Time on the same day, and one of unit 13 a hundred days later.
fn fuel_case(past: Vec<Past>) -> Case {
    let (day_ahead, real_time) = (Market::DAY_AHEAD, Market::REAL_TIME);
    let of_12 = [(8, 1_000, 700), (9, 200, -50), (10, 999, 999)];
    let of_13 = [(8, 10, -3), (9, 400, 1_100)];
    Case {
        units: vec![unit(12, 5_000), unit(13, 15_000)],
        past,
        events: vec![
            Event::fuel(8_000, day_ahead, 12, (1 << 8, 300_000, -100), &of_12),
            Event::fuel(8_000, day_ahead, 13, (1 << 9, 100, 600), &of_13),
            Event::fuel(8_000, real_time, 12, (0, -1_000_000, 0), &of_12),
            Event::fuel(8_100, day_ahead, 13, (0, -1_000_000, 2_000_000), &[]),
        ],
        ..Case::default()
    }
}

#[test]
fn fuel_terms() {
    // A penalty 100 days before, so that M is 3 halves.
    let before = Past::of_day(7, Kind::FUEL, Market::REAL_TIME, 7_900);
    let worked = workings(&fuel_case(vec![before]), &[]);
    // Hours 8 and 9 are the union of both P, and hour 10 is in neither. E is 10 × 300,100 + 700,000 − 10,000
    // − 30 + 440,000; X is 3 × 4,130,970 + 20 × 500, and the penalty a twentieth of it, 620,145.5.
    for event in [0, 1] {
        let penalty = &worked[event].penalty;
        assert_eq!((penalty.kind, penalty.row), (Kind::FUEL, 0));
        assert_eq!((penalty.e_positive, penalty.e_negative), (4_130_970, 0));
        assert_eq!((penalty.t, penalty.multiplier), (500, Multiplier(3)));
        assert_eq!((penalty.x, penalty.below), (12_402_910, false));
        assert_eq!(penalty.penalty, Cents(620_146));
    }
    let (of_12, of_13) = (&worked[0].penalty, &worked[1].penalty);
    assert_eq!(of_12.hours, terms(&[(8, 700_000)]));
    assert_eq!(of_12.losses, terms(&[(9, 10_000)]));
    assert_eq!(of_13.hours, terms(&[(9, 440_000)]));
    assert_eq!(of_13.losses, terms(&[(8, 30)]));
    // Real-Time, an empty union: E is 10 × Q alone, and X is below 0.
    let third = &worked[2].penalty;
    assert_eq!((third.row, third.multiplier), (2, Multiplier(3)));
    assert_eq!((third.e_positive, third.e_negative), (0, 10_000_000));
    assert_eq!((third.e(), third.t, third.x), (-10_000_000, 0, 0));
    assert_eq!((third.below, third.penalty), (true, Cents(0)));
    assert_eq!((third.hours, third.losses), ([0; 24], [0; 24]));
    // 3 × −10,000,000 + 20 × 2,000,000 is $5,000, which is not below it.
    let fourth = &worked[3].penalty;
    assert_eq!(
        (fourth.e(), fourth.t, fourth.row),
        (-10_000_000, 2_000_000, 3)
    );
    assert_eq!((fourth.x, fourth.below), (10_000_000, false));
    assert_eq!(fourth.penalty, Cents(500_000));
}

#[test]
fn fuel_terms_below_the_cut() {
    let worked = workings(&fuel_case(vec![]), &[]);
    // 2 × 4,130,970 + 20 × 500 is below $5,000, and raises nothing.
    let first = &worked[1].penalty;
    assert_eq!((first.row, first.multiplier), (0, Multiplier(2)));
    assert_eq!((first.x, first.below), (8_271_940, true));
    assert_eq!(first.penalty, Cents(0));
    // 2 × −10,000,000 + 20 × 2,000,000
    let fourth = &worked[3].penalty;
    assert_eq!((fourth.multiplier, fourth.x), (Multiplier(2), 20_000_000));
    assert_eq!(fourth.penalty, Cents(1_000_000));
}

/// A fuel event of unit 12 with E 10,000,000 and no T: $10,000 with M 2 halves, and half as much more with 3.
fn plain_fuel(day: u32, market: Market) -> Event {
    Event::fuel(day, market, 12, (0, 1_000_000, 0), &[])
}

/// M and penalty of the Day-Ahead event of a day.
fn fuel_of(case: &Case, day: u32) -> (Multiplier, Cents) {
    let is_it = |event: &Event| (event.day, event.market) == (day, Market::DAY_AHEAD);
    let place = case.events.iter().position(is_it).expect("the event");
    let worked = &workings(case, &[])[place].penalty;
    (worked.multiplier, worked.penalty)
}

/// Days, earlier days, and whether a fuel penalty of the earlier one counts.
const WINDOWS: [(u32, u32, bool); 16] = [
    // 1 September 2021 and 1 March.
    (7_914, 7_730, true),
    (7_914, 7_729, false),
    (7_914, 7_913, true),
    (7_914, 7_914, false),
    (7_914, 7_915, false),
    // 31 and 28 August 2001 and 28 February, 31 August 2004 and 29 February.
    (608, 424, true),
    (608, 423, false),
    (605, 424, true),
    (605, 423, false),
    (1_704, 1_520, true),
    (1_704, 1_519, false),
    // 30 June, 1 July and 2 July 2000, 31 December 2099.
    (181, 0, true),
    (182, 0, true),
    (183, 0, false),
    (36_524, 36_340, true),
    (36_524, 36_339, false),
];

#[test]
fn fuel_windows() {
    for (day, earlier, counts) in WINDOWS {
        let mut here = Case {
            units: vec![unit(12, 5_000)],
            events: vec![
                plain_fuel(earlier, Market::REAL_TIME),
                plain_fuel(day, Market::DAY_AHEAD),
            ],
            ..Case::default()
        };
        here.sort_events();
        let by_past = Case {
            past: vec![Past::of_day(7, Kind::FUEL, Market::REAL_TIME, earlier)],
            events: vec![plain_fuel(day, Market::DAY_AHEAD)],
            ..here.clone()
        };
        let expected = if counts {
            (Multiplier(3), Cents(1_500_000))
        } else {
            (Multiplier(2), Cents(1_000_000))
        };
        for case in [by_past, here] {
            assert_eq!(fuel_of(&case, day), expected, "{day} and {earlier}");
        }
    }
}

/// Bids of unit 12 for components 0, 1, 2 and 3, all Day-Ahead.
fn bids_case() -> Case {
    let bids = |component, cells: &[(usize, i32, i32, u32)]| {
        Event::bids(8_000, Market::DAY_AHEAD, 12, component, 0, cells)
    };
    let energy = [
        (0, 9_000, 5_000, 1_000),
        (1, 9_000, 7_000, 500),
        (2, 8_000, 0, 10),
        (3, 8_001, -1, 5),
        (4, 9_000, 0, 10),
    ];
    let generation = [(5, 5_000, 0, 0), (6, 20_000, 0, 0)];
    let start_up = [(0, 450_000, 0, 0), (1, 450_001, 0, 0)];
    Case {
        units: vec![unit(12, 5_000)],
        references: vec![
            reference(0, 2_000),
            reference(1, 1_000),
            reference(2, 500),
            reference(3, 100_000),
        ],
        events: vec![
            bids(0, &energy).with_impact(0b1111),
            bids(1, &generation)
                .with_impact(1 << 5)
                .with_minimum_run_hours(3),
            bids(2, &[(7, 2_001, 0, 0)]),
            bids(3, &start_up),
        ],
        ..Case::default()
    }
}

#[test]
fn make_up_terms() {
    let correction = [
        reference(0, 6_000),
        reference(1, 2_000),
        reference(3, 150_000),
    ];
    let worked = workings(&bids_case(), &correction);
    // With r 2,000 a bid above 8,000 is flagged: hours 0, 1 and 3, and hour 4, which has no impact. 1,000 × (6,000 −
    // 5,000) and 5 × (6,000 + 1); 6,000 − 7,000 is below 0. A tenth of 1,030,005 is 103,000.5.
    let energy = &worked[0].make_up;
    assert_eq!((energy.reference, energy.correct), (2_000, 6_000));
    assert_eq!((energy.mitigated, energy.restored), (Mask(0b1011), Mask(0)));
    assert_eq!(energy.hours, terms(&[(0, 1_000_000), (3, 30_005)]));
    assert_eq!((energy.tenths, energy.make_up), (1_030_005, Cents(103_001)));
    // The hit of hour 5 and three run hours make 5 to 7. With c 2,000 a bid up to 8,000 passes: 5,000 and the 0 of hour
    // 7, and not 20,000.
    let generation = &worked[1].make_up;
    assert_eq!((generation.reference, generation.correct), (1_000, 2_000));
    assert_eq!(generation.mitigated, Mask(0b1110_0000));
    assert_eq!(generation.restored, Mask(0b1010_0000));
    assert_eq!((generation.tenths, generation.make_up), (0, Cents(0)));
    // 2,001 is above four times 500. Reserve reads no c.
    let reserve = &worked[2].make_up;
    assert_eq!((reserve.reference, reserve.correct), (500, 0));
    assert_eq!(
        (reserve.mitigated, reserve.restored),
        (Mask(1 << 7), Mask(0))
    );
    // Three times c pass, and one more fails.
    let start_up = &worked[3].make_up;
    assert_eq!((start_up.reference, start_up.correct), (100_000, 150_000));
    assert_eq!(
        (start_up.mitigated, start_up.restored),
        (Mask(0b11), Mask(0b01))
    );
    // A bid has no penalty.
    let penalty = &worked[3].penalty;
    assert_eq!((penalty.kind, penalty.row), (Kind::BIDS, 3));
    assert_eq!(
        (penalty.multiplier, penalty.penalty),
        (Multiplier(0), Cents(0))
    );
}

#[test]
fn make_up_terms_without_a_correction() {
    let worked = workings(&bids_case(), &[]);
    // c is r: 5 × (2,000 + 1) in hour 3, in the others the price is above 2,000; nothing is due.
    let energy = &worked[0].make_up;
    assert_eq!((energy.reference, energy.correct), (2_000, 2_000));
    assert_eq!(energy.hours, terms(&[(3, 10_005)]));
    assert_eq!((energy.tenths, energy.make_up), (10_005, Cents(0)));
    // 0 would pass with c too, but is not restored.
    let generation = &worked[1].make_up;
    assert_eq!(generation.mitigated, Mask(0b1110_0000));
    assert_eq!(generation.restored, Mask(0));
}

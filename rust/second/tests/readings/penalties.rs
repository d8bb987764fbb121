//! Instances, multipliers and penalties of withheld and dispatch events (docs/RULES.md, S1 to S8), and zero as a number.

use cases::calendar::first_of_period;
use cases::{Case, Event, Market, Past, Unit};

use crate::common::{past_fuel, past_withheld, rows_of, unit};

/// A dispatch event of a unit of rate 20.
fn of_rate_20(cells: &[(usize, u32, u32)]) -> Case {
    Case {
        units: vec![Unit {
            response_rate: 20,
            ..unit(1, 7)
        }],
        events: vec![Event::dispatch(5, 1, cells)],
        ..Case::default()
    }
}

#[test]
fn dispatch_penalty_is_rounded_once() {
    // Rate 20: 15 × 20 = 300. Hours 0 and 1 fail with revenues 101 and 102, hour 2 passes.
    let mut case = of_rate_20(&[(0, 301, 101), (1, 302, 102), (2, 300, 5_000)]);
    let row = rows_of(&case, &[]).remove(0);
    // 3 × 203 / 2 = 304.5, halves up.
    assert_eq!(
        (row.flags.0, row.multiplier.0, row.penalty.0),
        (0b011, 3, 305)
    );
    assert_eq!((row.n3, row.n2, row.mitigated.0), (0, 0, 0));
    assert_eq!(row.bids, [0; 24]);
    case.events[0] = case.events[0].with_impact(0);
    let row = rows_of(&case, &[]).remove(0);
    assert_eq!(
        (row.flags.0, row.multiplier.0, row.penalty.0),
        (0b011, 0, 0)
    );
    // Rate 0: any MW is over 15 × 0.
    case.units[0].response_rate = 0;
    case.events[0] = Event::dispatch(5, 1, &[(0, 1, 7), (1, 0, 9)]);
    let row = rows_of(&case, &[]).remove(0);
    // 3 × 7 / 2 = 10.5
    assert_eq!(
        (row.flags.0, row.multiplier.0, row.penalty.0),
        (0b01, 3, 11)
    );
    // No flag: both 0, although impact is 1.
    case.events[0] = Event::dispatch(5, 1, &[(1, 0, 9)]);
    let row = rows_of(&case, &[]).remove(0);
    assert_eq!((row.flags.0, row.multiplier.0, row.penalty.0), (0, 0, 0));
}

#[test]
fn withheld_penalty_sums_the_flagged_hours_and_rounds_once() {
    // Capability 5,000: 501 fails, 500 passes. 2 × (501 × 5 + 501 × 0 + 503 × 4) = 2 × 4,517 =
    // 9,034 twentieths = 451.7; rounded apart 250.5 and 201.2 would give 251 + 201 = 452 too, so
    // a second case: 2 × (501 × 5 + 501 × 5) = 10,020 twentieths = 501, and not 251 + 251.
    let case = |cells: &[(usize, u32, i32)]| Case {
        units: vec![
            unit(1, 7),
            Unit {
                capability: 15_000,
                ..unit(2, 7)
            },
        ],
        events: vec![Event::withheld(5, Market::DAY_AHEAD, 1, cells)],
        ..Case::default()
    };
    let penalty = |cells: &[(usize, u32, i32)]| rows_of(&case(cells), &[])[0].penalty.0;
    assert_eq!(
        penalty(&[(0, 501, 5), (1, 501, -7), (2, 503, 4), (3, 500, 1_000)]),
        452
    );
    assert_eq!(penalty(&[(0, 501, 5), (1, 501, 5)]), 501);
}

/// An instance on this day of a period, from 0: 501 of a unit of 5,000 fails, whatever its group has.
fn fails(period: u16, day: u32, market: Market, unit: u32) -> Event {
    Event::withheld(first_of_period(period) + day, market, unit, &[(0, 501, 20)])
}

/// N3, N2 and the multiplier of all events.
fn counts_of(case: &Case) -> Vec<(u16, u16, u8)> {
    rows_of(case, &[])
        .iter()
        .map(|row| (row.n3, row.n2, row.multiplier.0))
        .collect()
}

#[test]
fn instances_count_by_place_in_the_file() {
    let mut case = Case {
        units: vec![unit(1, 7), unit(2, 7), unit(3, 8)],
        events: vec![
            fails(4, 0, Market::DAY_AHEAD, 1),  // 1, 1
            fails(4, 0, Market::DAY_AHEAD, 2),  // the lower unit of the same day counts: 2, 2
            fails(4, 0, Market::DAY_AHEAD, 3),  // another group: 1, 1
            fails(4, 0, Market::REAL_TIME, 1),  // another market: 1, 1
            fails(6, 0, Market::DAY_AHEAD, 1),  // two periods later: 3, 1
            fails(7, 0, Market::DAY_AHEAD, 1),  // 6 counts, 4 doesn't: 2, 2
            fails(7, 1, Market::DAY_AHEAD, 1),  // 6 and 7: 3, 3
            fails(7, 2, Market::DAY_AHEAD, 1),  // 4, 4
            fails(9, 0, Market::DAY_AHEAD, 1),  // 7 counts for N3 alone: 4, 1
            fails(12, 0, Market::DAY_AHEAD, 1), // nothing in 10 to 12: 1, 1
        ],
        ..Case::default()
    };
    assert_eq!(
        counts_of(&case),
        [
            (1, 1, 2),
            (2, 2, 2),
            (1, 1, 2),
            (1, 1, 2),
            (3, 1, 4),
            (2, 2, 2),
            (3, 3, 4),
            (4, 4, 6),
            (4, 1, 4),
            (1, 1, 2),
        ]
    );
    // Without impact the second event is no instance and counts for nobody.
    case.events[1] = case.events[1].with_impact(0);
    assert_eq!(counts_of(&case)[1], (0, 0, 0));
    assert_eq!(counts_of(&case)[4], (2, 1, 2));
}

#[test]
fn every_repeat_of_a_past_entry_counts() {
    let mut case = Case {
        units: vec![unit(1, 7)],
        past: vec![past_withheld(7, Market::DAY_AHEAD, 3); 3],
        events: vec![fails(4, 9, Market::DAY_AHEAD, 1)],
        ..Case::default()
    };
    let counts = |case: &Case| {
        let row = &rows_of(case, &[])[0];
        let counted = second::instances(&case.to_bytes(), &[], 0).unwrap();
        assert_eq!(
            (counted.three.count(), counted.two.count()),
            (row.n3, row.n2)
        );
        (row.n3, row.n2, row.multiplier.0, row.penalty.0)
    };
    // 6 × 501 × 20 / 20
    assert_eq!(counts(&case), (4, 4, 6, 3_006));
    // Another group, the other market, a fuel entry, a later period, one too early: all without effect.
    case.past.extend([
        past_withheld(8, Market::DAY_AHEAD, 3),
        past_withheld(7, Market::REAL_TIME, 3),
        past_fuel(7, Market::DAY_AHEAD, first_of_period(3)),
        past_withheld(7, Market::DAY_AHEAD, 5),
        past_withheld(7, Market::DAY_AHEAD, 1),
    ]);
    assert_eq!(counts(&case), (4, 4, 6, 3_006));
    // Period 2 from 1 November 2000 to 30 April 2001: its days are all alike.
    for day in [305, 400, 485] {
        case.past[0] = Past {
            day,
            ..past_withheld(7, Market::DAY_AHEAD, 2)
        };
        assert_eq!(counts(&case), (4, 3, 4, 2_004));
    }
}

#[test]
fn zero_is_an_ordinary_unit_group_period_and_day() {
    let case = Case {
        units: vec![unit(0, 0)],
        past: vec![
            past_withheld(0, Market::DAY_AHEAD, 0),
            past_fuel(0, Market::DAY_AHEAD, 0),
        ],
        events: vec![
            Event::withheld(0, Market::DAY_AHEAD, 0, &[(0, 501, 20)]),
            Event::fuel(0, Market::DAY_AHEAD, 0, (1, 600_000, 0), &[]),
            Event::fuel(1, Market::DAY_AHEAD, 0, (1, 600_000, 0), &[]),
        ],
        ..Case::default()
    };
    let rows = rows_of(&case, &[]);
    assert_eq!((rows[0].n3, rows[0].n2, rows[0].penalty.0), (2, 2, 1_002));
    // Day 0 is 0 days before day 0, and 1 before day 1.
    assert_eq!((rows[1].multiplier.0, rows[1].penalty.0), (2, 600_000));
    assert_eq!((rows[2].multiplier.0, rows[2].penalty.0), (3, 900_000));
}

//! Multipliers and penalties of fuel party-days (docs/RULES.md, S9 to S15).

use cases::{Case, Event, Market};

use crate::common::{past_fuel, rows_of, unit};

#[test]
fn fuel_multiplier_stands_beside_a_zero_penalty_on_the_lowest_unit() {
    let case = Case {
        units: vec![unit(12, 7), unit(13, 7), unit(14, 8)],
        past: vec![past_fuel(7, Market::REAL_TIME, 7_900)],
        events: vec![
            Event::fuel(8_000, Market::DAY_AHEAD, 12, (0b01, 0, 0), &[]),
            Event::fuel(8_000, Market::DAY_AHEAD, 13, (0b10, 0, 0), &[]),
            Event::fuel(8_000, Market::DAY_AHEAD, 14, (0b100, 0, 0), &[]),
        ],
        ..Case::default()
    };
    let rows = rows_of(&case, &[]);
    // Units 12 and 13 are one party-day with union 0b11; unit 14 is another group.
    let figures: Vec<_> = rows
        .iter()
        .map(|row| {
            (
                row.flags.0,
                row.mitigated.0,
                row.multiplier.0,
                row.penalty.0,
            )
        })
        .collect();
    assert_eq!(
        figures,
        [(0b11, 0, 3, 0), (0b11, 0, 0, 0), (0b100, 0, 2, 0)]
    );
    assert!(rows.iter().all(|row| (row.n3, row.n2) == (0, 0)));
}

/// M and the penalty of events of one unit.
fn figures_of(events: Vec<Event>) -> Vec<(u8, u64)> {
    let case = Case {
        units: vec![unit(1, 7)],
        events,
        ..Case::default()
    };
    rows_of(&case, &[])
        .iter()
        .map(|row| (row.multiplier.0, row.penalty.0))
        .collect()
}

#[test]
fn fuel_penalties_raise_later_ones() {
    // Q 600,000: E 6,000,000; M 2 gives 600,000 cents, M 3 gives 900,000.
    let large = |day, market| Event::fuel(day, market, 1, (0, 600_000, 0), &[]);
    let small = |day, market| Event::fuel(day, market, 1, (0, 400_000, 0), &[]);
    // The other market on the same day doesn't raise M; either market on a later day does.
    assert_eq!(
        figures_of(vec![
            large(100, Market::DAY_AHEAD),
            large(100, Market::REAL_TIME),
            large(101, Market::REAL_TIME),
            large(284, Market::DAY_AHEAD), // six months after 101, 11 April 2000
            large(467, Market::DAY_AHEAD), // a day more than six months after 284
        ]),
        [
            (2, 600_000),
            (2, 600_000),
            (3, 900_000),
            (3, 900_000),
            (2, 600_000),
        ]
    );
    // E 4,000,000 with M 2 is X 8,000,000, cut to 0, and raises nothing; with M 3 it is
    // 12,000,000, so 600,000 cents, and raises the next.
    assert_eq!(
        figures_of(vec![
            small(100, Market::DAY_AHEAD),
            small(200, Market::DAY_AHEAD),
            large(201, Market::DAY_AHEAD),
            small(300, Market::DAY_AHEAD),
            small(400, Market::DAY_AHEAD),
        ]),
        [(2, 0), (2, 0), (2, 600_000), (3, 600_000), (3, 600_000),]
    );
}

#[test]
fn the_5000_dollar_cut_is_on_twentieths() {
    // X = 3 × 3,333,333 = 9,999,999; 3 × 3,333,334 = 10,000,002.
    assert_eq!(second::calls::fuel_penalty(3_333_333, 0, 3), Ok(0));
    assert_eq!(second::calls::fuel_penalty(3_333_334, 0, 3), Ok(500_000));
    // In a case: 10 × 333,333 + 3 × 1 = 3,333,333, and 4 × 1 makes 3,333,334.
    for (energy, penalty) in [(3, 0), (4, 500_000)] {
        let case = Case {
            units: vec![unit(1, 7)],
            past: vec![past_fuel(7, Market::DAY_AHEAD, 4)],
            events: vec![Event::fuel(
                5,
                Market::REAL_TIME,
                1,
                (1, 333_333, 0),
                &[(0, energy, 1)],
            )],
            ..Case::default()
        };
        let row = rows_of(&case, &[]).remove(0);
        assert_eq!((row.multiplier.0, row.penalty.0), (3, penalty));
    }
}

/// A party-day of two events, the second with this R.
fn of_two_events(r: i32) -> Case {
    Case {
        units: vec![unit(1, 7), unit(2, 7)],
        events: vec![
            Event::fuel(
                5,
                Market::DAY_AHEAD,
                1,
                (0b001, 100_000, 400_000),
                &[(0, 1_000, 3_000), (1, 10, -50), (2, 50_000, 1_000_000)],
            ),
            Event::fuel(
                5,
                Market::DAY_AHEAD,
                2,
                (0b010, -20_000, r),
                &[(0, 500, 2_000), (1, 7, 9)],
            ),
        ],
        ..Case::default()
    }
}

#[test]
fn fuel_sums_over_the_union_and_all_events() {
    // Union 0b011. Event 1: Q 100,000 and hours 0 and 1; event 2: P of hour 1, Q −20,000.
    // E = 10 × (100,000 − 20,000) + 1,000 × 3,000 + 10 × (−50) + 500 × 2,000 + 7 × 9
    //   = 800,000 + 3,000,000 − 500 + 1,000,000 + 63 = 4,799,563. Hour 2 is outside.
    // T = 400,000 − 390,000 = 10,000, the sum of R and not of its positive parts.
    // X = 2 × 4,799,563 + 20 × 10,000 = 9,799,126: below the cut.
    let figures = |r| -> Vec<_> {
        rows_of(&of_two_events(r), &[])
            .iter()
            .map(|row| (row.flags.0, row.multiplier.0, row.penalty.0))
            .collect()
    };
    assert_eq!(figures(-390_000), [(0b011, 2, 0), (0b011, 0, 0)]);
    // T = 20,100: X = 9,599,126 + 402,000 = 10,001,126, in cents 500,056.3.
    assert_eq!(figures(-379_900), [(0b011, 2, 500_056), (0b011, 0, 0)]);
    let days = second::fuel_party_days(&of_two_events(-379_900).to_bytes(), &[]).unwrap();
    assert_eq!(days.len(), 1);
    assert_eq!((days[0].e, days[0].t), (4_799_563, 20_100));
    // T is 0 where the sum of R is negative.
    let days = second::fuel_party_days(&of_two_events(-400_001).to_bytes(), &[]).unwrap();
    assert_eq!(days[0].t, 0);
}

#[test]
fn an_empty_union_leaves_the_guarantee_payments() {
    // No hour counts, so E = 10 × 700,000; X 14,000,000; 700,000 cents, with flag mask 0.
    let case = Case {
        units: vec![unit(1, 7)],
        events: vec![Event::fuel(
            5,
            Market::REAL_TIME,
            1,
            (0, 700_000, 0),
            &[(0, 50_000, 1_000_000)],
        )],
        ..Case::default()
    };
    let row = rows_of(&case, &[]).remove(0);
    assert_eq!(
        (row.flags.0, row.multiplier.0, row.penalty.0),
        (0, 2, 700_000)
    );
    assert_eq!((row.mitigated.0, row.bids), (0, [0; 24]));
}

//! Mitigated hours, bids in force and make-up payments (docs/RULES.md, D).

use cases::case::EVERY_HOUR;
use cases::{Case, Event, Market, Unit};

use crate::common::{number, reference, rows_of, unit};

/// The mask of the hours from `first` to `last`.
fn span(first: u32, last: u32) -> u32 {
    (first..=last).fold(0, |mask, hour| mask | 1 << hour)
}

/// Day-Ahead bids for minimum generation with r 2,000, in the other hours of 8,000.
fn minimum_generation(cells: &[(usize, i32, i32, u32)]) -> Case {
    Case {
        units: vec![unit(1, 7)],
        references: vec![reference(1, 1, 2_000)],
        events: vec![Event::bids(5, Market::DAY_AHEAD, 1, 1, 8_000, cells)],
        ..Case::default()
    }
}

#[test]
fn minimum_generation_span_with_the_own_reference() {
    // r 2,000; 9,000 fails (7,000 > 6,000), 8,000 passes (6,000). R 8 from hour 10: 10 to 17.
    let mut case = minimum_generation(&[(10, 9_000, 0, 0), (12, 1_500, 0, 0), (20, 9_000, 0, 0)]);
    case.events[0] = case.events[0]
        .with_impact(1 << 10)
        .with_minimum_run_hours(8);
    let row = rows_of(&case, &[]).remove(0);
    assert_eq!(row.flags.0, 1 << 10 | 1 << 20);
    assert_eq!(row.mitigated.0, span(10, 17));
    // Unflagged hours inside the span fall to the lesser of a and r.
    assert_eq!(row.bids[9..14], [8_000, 2_000, 2_000, 1_500, 2_000]);
    assert_eq!(row.bids[17..21], [2_000, 8_000, 8_000, 9_000]);
    // With impact in hour 20 too, the last hit is later than 17.
    case.events[0] = case.events[0].with_impact(EVERY_HOUR);
    assert_eq!(rows_of(&case, &[])[0].mitigated.0, span(10, 20));
    // R 24 from hour 10 ends at 23; R 0 leaves the hits' own span.
    case.events[0] = case.events[0].with_minimum_run_hours(24);
    assert_eq!(rows_of(&case, &[])[0].mitigated.0, span(10, 23));
    case.events[0] = case.events[0].with_minimum_run_hours(0);
    assert_eq!(rows_of(&case, &[])[0].mitigated.0, span(10, 20));
    // No hit, no span.
    case.events[0] = case.events[0].with_impact(1).with_minimum_run_hours(24);
    let row = rows_of(&case, &[]).remove(0);
    assert_eq!((row.mitigated.0, row.bids[10]), (0, 9_000));
    // No span in Real-Time.
    case.events[0].market = Market::REAL_TIME;
    case.events[0] = case.events[0].with_impact(EVERY_HOUR);
    assert_eq!(rows_of(&case, &[])[0].mitigated.0, 1 << 10 | 1 << 20);
}

#[test]
fn run_hours_0_from_hour_0() {
    let case = Case {
        units: vec![unit(0, 0)],
        references: vec![reference(0, 1, 0)],
        events: vec![Event::bids(
            0,
            Market::DAY_AHEAD,
            0,
            1,
            -5,
            &[(0, 2_500, 0, 0)],
        )],
        ..Case::default()
    };
    let row = rows_of(&case, &[]).remove(0);
    assert_eq!((row.flags.0, row.mitigated.0), (1, 1));
    assert_eq!(row.bids[..2], [0, -5]);
}

#[test]
fn spans_tested_with_the_correct_reference() {
    // r 2,000, c 2,300: 9,000 has d 6,700 ≤ 6,900 and passes with c; 9,300 has d 7,000 and fails.
    let mut case = minimum_generation(&[(3, 9_000, 0, 0), (5, 9_300, 0, 0), (6, 2_100, 0, 0)]);
    case.events[0] = case.events[0].with_minimum_run_hours(5);
    let row = rows_of(&case, &[reference(1, 1, 2_300)]).remove(0);
    // Flags and span stay those of r: hours 3 to 7.
    assert_eq!(
        (row.flags.0, row.mitigated.0),
        (1 << 3 | 1 << 5, span(3, 7))
    );
    assert_eq!(
        row.bids[2..9],
        [8_000, 9_000, 8_000, 2_300, 2_100, 8_000, 8_000]
    );
    assert_eq!(row.make_up.0, 0);
    // c = r given by a correction: the lesser of a and r again in every hour of the span.
    let row = rows_of(&case, &[reference(1, 1, 2_000)]).remove(0);
    assert_eq!(
        row.bids[2..9],
        [8_000, 2_000, 2_000, 2_000, 2_000, 2_000, 8_000]
    );
    // c below r: 8,000 fails with c 1,900 (6,100 > 5,700), 2,100 lies below the floor.
    let row = rows_of(&case, &[reference(1, 1, 1_900)]).remove(0);
    assert_eq!(
        row.bids[2..9],
        [8_000, 1_900, 1_900, 1_900, 2_100, 1_900, 8_000]
    );
}

#[test]
fn the_second_test_has_the_tight_clause() {
    // H 1,000, Average 5,000: d > 876. r 1,000, c 1,200. a 2,077 fails with c (877) in the hour
    // with the Shadow Price; a 2,076 passes with c (876). Both fail with r (1,077 and 1,076).
    let case = Case {
        units: vec![Unit {
            area: 1,
            average_price: 5_000,
            constrained_hours: 1_000,
            ..unit(1, 7)
        }],
        references: vec![reference(1, 1, 1_000)],
        events: vec![
            Event::bids(
                5,
                Market::REAL_TIME,
                1,
                1,
                0,
                &[(0, 2_077, 0, 0), (1, 2_076, 0, 0), (2, 2_077, 0, 0)],
            )
            .with_shadow_price(0b011),
        ],
        ..Case::default()
    };
    let row = rows_of(&case, &[reference(1, 1, 1_200)]).remove(0);
    assert_eq!((row.flags.0, row.mitigated.0), (0b011, 0b011));
    assert_eq!(row.bids[..3], [1_200, 2_076, 2_077]);
}

#[test]
fn start_up_cost_with_a_correct_reference() {
    // r 1,000: 3,001 fails. c 1,001: 3 × 1,001 = 3,003 passes up to there.
    let case = Case {
        units: vec![unit(1, 7)],
        references: vec![reference(1, 3, 1_000)],
        events: vec![Event::bids(
            5,
            Market::REAL_TIME,
            1,
            3,
            0,
            &[(0, 3_000, 0, 0), (1, 3_001, 0, 0), (2, 3_004, 0, 0)],
        )],
        ..Case::default()
    };
    let row = rows_of(&case, &[reference(1, 3, 1_001)]).remove(0);
    assert_eq!((row.flags.0, row.mitigated.0), (0b110, 0b110));
    assert_eq!(row.bids[..3], [3_000, 3_001, 1_001]);
    let row = rows_of(&case, &[]).remove(0);
    assert_eq!(row.bids[..3], [3_000, 1_000, 1_000]);
}

/// Energy bids with r 2,000 and this m in hour 0.
fn energy(m: u32) -> Case {
    Case {
        units: vec![unit(1, 7)],
        references: vec![reference(1, 0, 2_000)],
        events: vec![Event::bids(
            5,
            Market::DAY_AHEAD,
            1,
            0,
            0,
            &[
                (0, 9_000, 2_500, m),
                (1, 9_000, 3_001, 50_000),
                (2, 9_000, -100, 3),
                (3, 8_000, 0, 50_000),
            ],
        )],
        ..Case::default()
    }
}

#[test]
fn energy_keeps_the_own_reference_and_gets_a_make_up() {
    // r 2,000. Hour 0: a 9,000, c 3,000, b 2,500, m 7: 7 × 500 = 3,500 tenths.
    // Hour 1: b 3,001 above c: nothing. Hour 2: b −100: 3 × 3,100 = 9,300.
    // Hour 3: 8,000 passes: not mitigated. Sum 12,800 tenths = 1,280 cents.
    let row = rows_of(&energy(7), &[reference(1, 0, 3_000)]).remove(0);
    assert_eq!((row.mitigated.0, row.make_up.0), (0b111, 1_280));
    assert_eq!(row.bids[..4], [2_000, 2_000, 2_000, 8_000]);
    // c 2,505, m 1: 1 × 5 + 3 × 2,605 = 7,820 tenths = 782; c 2,501: 1 + 7,803 = 7,804: 780.4.
    assert_eq!(
        rows_of(&energy(1), &[reference(1, 0, 2_505)])[0].make_up.0,
        782
    );
    assert_eq!(
        rows_of(&energy(1), &[reference(1, 0, 2_501)])[0].make_up.0,
        780
    );
    // c 2,505, m 2: 10 + 7,815 = 7,825: 782.5 goes up.
    assert_eq!(
        rows_of(&energy(2), &[reference(1, 0, 2_505)])[0].make_up.0,
        783
    );
    // c below r is c ≠ r too: c 1,000, only hour 2: 3 × 1,100 = 3,300.
    assert_eq!(
        rows_of(&energy(7), &[reference(1, 0, 1_000)])[0].make_up.0,
        330
    );
    // c above a: the lesser is a. c 10,000: 7 × 6,500 + 50,000 × 5,999 + 3 × 9,100 = 300,022,800.
    assert_eq!(
        rows_of(&energy(7), &[reference(1, 0, 10_000)])[0].make_up.0,
        30_002_280
    );
    // c = r: nothing.
    assert_eq!(
        rows_of(&energy(7), &[reference(1, 0, 2_000)])[0].make_up.0,
        0
    );
}

#[test]
fn other_components_never_read_c() {
    // Each component with r 100, a bid that fails and a correction of r 100,000.
    for (component, bid, in_force) in [
        (2, 501, 100),
        (4, 281, 100),
        (5, 281, 100),
        (6, 281, 100),
        (7, 201, 100),
        (8, 49, 100),
    ] {
        let case = Case {
            units: vec![unit(1, 7)],
            references: vec![reference(1, 0, 0), reference(1, component, 100)],
            events: vec![
                Event::bids(5, Market::DAY_AHEAD, 1, component, 100, &[(4, bid, 0, 900)])
                    .with_minimum_run_hours(9),
            ],
            ..Case::default()
        };
        let expected = rows_of(&case, &[]);
        assert_eq!(
            (expected[0].flags.0, expected[0].mitigated.0),
            (1 << 4, 1 << 4)
        );
        assert_eq!(expected[0].bids[3..6], [100, in_force, 100]);
        assert_eq!(
            rows_of(&case, &[reference(1, component, 100_000)]),
            expected
        );
        // No entry needed: the correction names another component only.
        assert_eq!(rows_of(&case, &[reference(1, 0, 1)]), expected);
    }
}

#[test]
fn an_hour_is_mitigated_when_flagged_with_its_impact_bit() {
    let case = Case {
        units: vec![unit(1, 7)],
        references: vec![reference(1, 7, 100)],
        events: vec![
            Event::bids(
                5,
                Market::DAY_AHEAD,
                1,
                7,
                0,
                &[(0, 201, 0, 0), (1, 201, 0, 0), (2, 200, 0, 0)],
            )
            .with_impact(0b110),
        ],
        ..Case::default()
    };
    let row = rows_of(&case, &[]).remove(0);
    assert_eq!((row.flags.0, row.mitigated.0), (0b011, 0b010));
    assert_eq!(row.bids[..3], [201, 100, 200]);
    assert_eq!(
        (row.multiplier.0, row.penalty.0, row.n3, row.n2),
        (0, 0, 0, 0)
    );
}

#[test]
fn a_correction_is_chosen_as_a_whole() {
    let mut case = Case {
        units: vec![unit(1, 7), unit(2, 7)],
        references: vec![reference(1, 0, 2_000), reference(2, 0, 2_000)],
        events: vec![
            Event::bids(5, Market::DAY_AHEAD, 1, 0, 0, &[(0, 9_000, 0, 10)]),
            Event::bids(5, Market::DAY_AHEAD, 2, 0, 0, &[(0, 9_000, 0, 10)]),
        ],
        ..Case::default()
    };
    assert_eq!(number(&case, &[reference(1, 0, 2_500)]), 14);
    let rows = rows_of(&case, &[reference(1, 0, 2_500), reference(2, 0, 2_000)]);
    // 10 × 2,500 tenths for unit 1; c = r for unit 2.
    assert_eq!([rows[0].make_up.0, rows[1].make_up.0], [2_500, 0]);
    case.events.pop();
    assert_eq!(number(&case, &[reference(1, 0, 2_500)]), 0);
}

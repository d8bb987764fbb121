//! Multipliers, penalties and the windows of periods (docs/RULES.md, S).

use cases::{Case, Event, Market};
use second::calls;

use crate::common::{past_fuel, past_withheld, rows_of, unit};
use crate::withheld_row;

#[test]
fn withheld_501_at_4005_is_200651() {
    // 2 × 501 × 4,005 = 4,013,010 twentieths = 200,650.5 cents, halves up.
    assert_eq!(
        calls::withheld_penalty_of_one_hour(2, 501, 4_005),
        Ok(200_651)
    );
    assert_eq!(withheld_row(501, 4_005).penalty.0, 200_651);
}

#[test]
fn negative_price_is_no_penalty() {
    assert_eq!(calls::withheld_penalty_of_one_hour(2, 501, -100), Ok(0));
    let row = withheld_row(501, -100);
    assert_eq!((row.flags.0, row.multiplier.0, row.penalty.0), (1, 2, 0));
}

#[test]
fn multipliers_of_n3_and_n2() {
    assert_eq!(calls::multiplier(4, 3), Ok(4));
    assert_eq!(calls::multiplier(4, 4), Ok(6));
    assert_eq!(calls::multiplier(2, 2), Ok(2));
    assert_eq!(calls::multiplier(3, 1), Ok(4));
    assert_eq!(calls::multiplier(456, 3), Ok(4));
    assert_eq!(calls::multiplier(456, 456), Ok(6));
}

/// The cases of request 3 in the tariff's order, each with whether it holds and its halves.
fn printed_cases(n3: u16, n2: u16) -> [(bool, u8); 4] {
    [
        (n3 == 1, 2),            // 23.4.3.4.1
        (n3 == 2, 2),            // 23.4.3.4.2
        (n3 >= 3 && n2 <= 3, 4), // 23.4.3.4.3
        (n2 >= 4, 6),            // 23.4.3.4.4
    ]
}

#[test]
fn exactly_one_printed_case_holds() {
    let mut held = [0; 4];
    for n3 in 1..=456 {
        for n2 in 1..=n3 {
            let cases = printed_cases(n3, n2);
            let holding: Vec<usize> = (0..4).filter(|&case| cases[case].0).collect();
            let [case] = holding[..] else {
                panic!("N3 {n3}, N2 {n2}: of the cases from 0 {holding:?} hold");
            };
            assert_eq!(
                calls::multiplier(n3, n2),
                Ok(cases[case].1),
                "N3 {n3}, N2 {n2}"
            );
            held[case] += 1;
        }
    }
    // 454 N3 with three N2 each; N2 from 4 to N3 for N3 from 4 to 456.
    assert_eq!(held, [1, 2, 3 * 454, 453 * 454 / 2]);
}

#[test]
fn a_fourth_instance_is_counted_over_two_periods() {
    // One entry two periods before and two in the own period: N3 4, N2 3.
    let mut case = Case {
        units: vec![unit(12, 7)],
        past: vec![
            past_withheld(7, Market::DAY_AHEAD, 42),
            past_withheld(7, Market::DAY_AHEAD, 44),
            past_withheld(7, Market::DAY_AHEAD, 44),
        ],
        events: vec![
            Event::withheld(8_000, Market::DAY_AHEAD, 12, &[(0, 501, 4_000)]).in_period(44),
        ],
        ..Case::default()
    };
    let row = rows_of(&case, &[]).remove(0);
    assert_eq!((row.n3, row.n2, row.multiplier.0), (4, 3, 4));
    // 4 × 501 × 4,000 / 20
    assert_eq!(row.penalty.0, 400_800);
    // The first entry one period later: N2 4.
    case.past[0] = past_withheld(7, Market::DAY_AHEAD, 43);
    let row = rows_of(&case, &[]).remove(0);
    assert_eq!((row.n3, row.n2, row.multiplier.0), (4, 4, 6));
    assert_eq!(row.penalty.0, 601_200);
}

#[test]
fn capability_period_windows() {
    let window = |own, other| {
        let window = calls::capability_period_window(own, other).unwrap();
        (window.n3, window.n2)
    };
    assert_eq!(window(44, 44), (true, true));
    assert_eq!(window(44, 43), (true, true));
    assert_eq!(window(44, 42), (true, false));
    assert_eq!(window(44, 41), (false, false));
    assert_eq!(window(44, 45), (false, false));
    // Nothing lies before period 0.
    assert_eq!(window(0, 65_535), (false, false));
    assert_eq!(window(0, 0), (true, true));
}

#[test]
fn fuel_penalties() {
    assert_eq!(calls::fuel_penalty(5_000_000, 0, 2), Ok(500_000));
    assert_eq!(calls::fuel_penalty(4_999_990, 0, 2), Ok(0));
    // 3 × 4,999,990 = 14,999,970 twentieths = 749,998.5 cents.
    assert_eq!(calls::fuel_penalty(4_999_990, 0, 3), Ok(749_999));
    // Why demand 3 has a premise.
    assert_eq!(
        calls::fuel_penalty(-10_000_000, 2_000_000, 2),
        Ok(1_000_000)
    );
    assert_eq!(calls::fuel_penalty(-10_000_000, 2_000_000, 3), Ok(500_000));
}

#[test]
fn fuel_penalties_in_a_case() {
    let mut case = Case {
        units: vec![unit(12, 7)],
        events: vec![Event::fuel(
            8_000,
            Market::DAY_AHEAD,
            12,
            (1, 499_999, 0),
            &[],
        )],
        ..Case::default()
    };
    // E = 10 × 499,999 = 4,999,990.
    let row = rows_of(&case, &[]).remove(0);
    assert_eq!((row.flags.0, row.multiplier.0, row.penalty.0), (1, 2, 0));
    case.past = vec![past_fuel(7, Market::REAL_TIME, 7_999)];
    let row = rows_of(&case, &[]).remove(0);
    assert_eq!((row.multiplier.0, row.penalty.0), (3, 749_999));
    case.past.clear();
    case.events = vec![Event::fuel(
        8_000,
        Market::DAY_AHEAD,
        12,
        (0, 500_000, 0),
        &[],
    )];
    let row = rows_of(&case, &[]).remove(0);
    assert_eq!(
        (row.flags.0, row.multiplier.0, row.penalty.0),
        (0, 2, 500_000)
    );
}

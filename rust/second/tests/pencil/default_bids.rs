//! Spans, bids in force and make-up payments (docs/RULES.md, D).

use cases::{Case, Event, Market};
use second::calls;

use crate::common::{PLAIN, reference, rows_of, unit};

#[test]
fn make_up_of_1000_at_a_difference_of_1000() {
    // 1,000 × (6,000 − 5,000) = 1,000,000 tenths of a cent.
    assert_eq!(
        calls::make_up_of_one_hour(2_000, 6_000, 20_000, 5_000, 1_000),
        Ok(100_000)
    );
    assert_eq!(
        calls::make_up_of_one_hour(6_000, 6_000, 20_000, 5_000, 1_000),
        Ok(0)
    );
    let case = Case {
        units: vec![unit(12, 7)],
        references: vec![reference(12, 0, 2_000)],
        events: vec![Event::bids(
            8_000,
            Market::DAY_AHEAD,
            12,
            0,
            0,
            &[(3, 20_000, 5_000, 1_000)],
        )],
        ..Case::default()
    };
    let row = rows_of(&case, &[reference(12, 0, 6_000)]).remove(0);
    assert_eq!((row.mitigated.0, row.make_up.0), (1 << 3, 100_000));
    assert_eq!(rows_of(&case, &[])[0].make_up.0, 0);
}

#[test]
fn spans_of_minimum_generation() {
    let hours = |first: u32, last: u32| (first..=last).fold(0, |mask, hour| mask | 1 << hour);
    assert_eq!(
        calls::mitigated_span(1, Market::DAY_AHEAD.0, 1 << 10, 8),
        Ok(hours(10, 17))
    );
    assert_eq!(
        calls::mitigated_span(1, Market::DAY_AHEAD.0, 1 << 5 | 1 << 10, 8),
        Ok(hours(5, 12))
    );
    // The last hit is later than first + R − 1.
    assert_eq!(
        calls::mitigated_span(1, Market::DAY_AHEAD.0, 1 << 5 | 1 << 20, 8),
        Ok(hours(5, 20))
    );
    assert_eq!(
        calls::mitigated_span(1, Market::DAY_AHEAD.0, 1 << 20, 8),
        Ok(hours(20, 23))
    );
    assert_eq!(calls::mitigated_span(1, Market::DAY_AHEAD.0, 0, 24), Ok(0));
    assert_eq!(calls::mitigated_span(1, Market::DAY_AHEAD.0, 1, 0), Ok(1));
    // No span in Real-Time or for other components.
    assert_eq!(
        calls::mitigated_span(1, Market::REAL_TIME.0, 1 << 10, 8),
        Ok(1 << 10)
    );
    assert_eq!(
        calls::mitigated_span(3, Market::DAY_AHEAD.0, 1 << 10, 8),
        Ok(1 << 10)
    );
}

#[test]
fn bids_in_force() {
    assert_eq!(calls::bid_in_force(0, 2_000, 9_000, true), Ok(2_000));
    assert_eq!(calls::bid_in_force(0, 2_000, 9_000, false), Ok(9_000));
    assert_eq!(calls::bid_in_force(1, 2_000, -9_000, true), Ok(-9_000));
    let with_c = |component, r, c, a, mitigated| {
        calls::bid_in_force_with_correct_reference(component, PLAIN, r, c, a, mitigated)
    };
    // Component 1, a 9,000: with c 2,250 d = 6,750 = 3 × 2,250 passes; with 2,249 it fails.
    assert_eq!(with_c(1, 2_000, 2_250, 9_000, true), Ok(9_000));
    assert_eq!(with_c(1, 2_000, 2_249, 9_000, true), Ok(2_249));
    // c = r: no second test, even where a would pass.
    assert_eq!(with_c(1, 2_250, 2_250, 9_000, true), Ok(2_250));
    // Component 3: d > 2 × c, so 3,000 passes with 1,000 and 3,001 fails.
    assert_eq!(with_c(3, 500, 1_000, 3_000, true), Ok(3_000));
    assert_eq!(with_c(3, 500, 1_000, 3_001, true), Ok(1_000));
    assert_eq!(with_c(3, 500, 1_000, 3_001, false), Ok(3_001));
    // Component 0 keeps the lesser of a and r; the others don't read c.
    assert_eq!(with_c(0, 2_000, 6_000, 20_000, true), Ok(2_000));
    assert_eq!(with_c(7, 100, 900, 201, true), Ok(100));
    assert_eq!(with_c(8, 100, 10, 49, true), Ok(100));
}

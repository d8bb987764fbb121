//! Flags: the conduct tests (docs/RULES.md, F).

use cases::{Case, Event, Market, Unit};
use second::calls::{self, BidHour};

use crate::common::{PLAIN, TIGHT, reference, rows_of, unit};
use crate::withheld_row;

#[test]
fn withheld_500_of_5000_passes_and_501_fails() {
    assert_eq!(
        calls::withheld_test(500, 5_000, 500, 20_000, false),
        Ok(false)
    );
    assert_eq!(
        calls::withheld_test(501, 5_000, 501, 20_000, false),
        Ok(true)
    );
    assert_eq!(withheld_row(500, 4_005).flags.0, 0);
    assert_eq!(withheld_row(501, 4_005).flags.0, 1);
}

#[test]
fn energy_bids_against_three_references_or_100_dollars() {
    let test = |component, r, a| calls::bid_test(component, PLAIN, r, a);
    for component in [0, 1] {
        assert_eq!(test(component, 625, 2_500), Ok(false));
        assert_eq!(test(component, 624, 2_500), Ok(true));
        assert_eq!(test(component, 5_000, 15_000), Ok(false));
        assert_eq!(test(component, 5_000, 15_001), Ok(true));
        // The floor of 2,500.
        assert_eq!(test(component, 0, 2_499), Ok(false));
        assert_eq!(test(component, 0, 2_500), Ok(true));
    }
}

#[test]
fn constrained_hours_test_of_energy_bids() {
    assert_eq!(calls::bid_test(0, TIGHT, 2_000, 2_876), Ok(false));
    assert_eq!(calls::bid_test(0, TIGHT, 2_000, 2_877), Ok(true));
    let day_ahead = BidHour {
        market: Market::DAY_AHEAD.0,
        ..TIGHT
    };
    let not_tight = BidHour {
        tight: false,
        ..TIGHT
    };
    let no_hours = BidHour {
        constrained_hours: 0,
        ..TIGHT
    };
    for other in [day_ahead, not_tight, no_hours] {
        assert_eq!(calls::bid_test(0, other, 2_000, 2_877), Ok(false));
    }
    // Of the other components only 1 has this test, and there is no floor: d 877 at r 0.
    assert_eq!(calls::bid_test(1, TIGHT, 0, 877), Ok(true));
    assert_eq!(calls::bid_test(1, TIGHT, 0, 876), Ok(false));
    assert_eq!(calls::bid_test(2, TIGHT, 2_000, 2_877), Ok(false));
}

#[test]
fn constrained_hours_test_in_a_case() {
    let case = Case {
        units: vec![Unit {
            area: 1,
            average_price: 5_000,
            constrained_hours: 1_000,
            ..unit(12, 7)
        }],
        references: vec![reference(12, 0, 2_000)],
        events: vec![
            // Hour 2 has no Shadow Price.
            Event::bids(
                8_000,
                Market::REAL_TIME,
                12,
                0,
                0,
                &[(0, 2_876, 0, 0), (1, 2_877, 0, 0), (2, 2_877, 0, 0)],
            )
            .with_shadow_price(0b011),
        ],
        ..Case::default()
    };
    let row = rows_of(&case, &[]).remove(0);
    assert_eq!(row.flags.0, 0b010);
    assert_eq!(row.bids[..3], [2_876, 2_000, 2_877]);
}

#[test]
fn time_increases() {
    assert_eq!(calls::time_increases_test([120, 120, 120]), Ok([false; 3]));
    assert_eq!(calls::time_increases_test([121, 120, 120]), Ok([true; 3]));
    // A decrease is neither added nor flagged; 180 alone passes, 181 alone fails.
    assert_eq!(
        calls::time_increases_test([180, 180, -50]),
        Ok([false, false, false])
    );
    assert_eq!(
        calls::time_increases_test([181, 0, 100]),
        Ok([true, false, false])
    );
    assert_eq!(
        calls::time_increases_test([361, 0, 1]),
        Ok([true, false, true])
    );
}

#[test]
fn time_increases_in_a_case() {
    let bids = |component, bid| {
        Event::bids(
            8_000,
            Market::DAY_AHEAD,
            12,
            component,
            0,
            &[(5, bid, 0, 0)],
        )
        .with_impact(0)
    };
    let mut case = Case {
        units: vec![unit(12, 7)],
        references: vec![
            reference(12, 4, 60),
            reference(12, 5, 60),
            reference(12, 6, 60),
        ],
        events: vec![bids(4, 180), bids(5, 180), bids(6, 180)],
        ..Case::default()
    };
    assert!(rows_of(&case, &[]).iter().all(|row| row.flags.0 == 0));
    case.events[0] = bids(4, 181);
    assert!(rows_of(&case, &[]).iter().all(|row| row.flags.0 == 1 << 5));
}

#[test]
fn maximum_parameter_below_half() {
    assert_eq!(calls::bid_test(8, PLAIN, 100, 50), Ok(false));
    assert_eq!(calls::bid_test(8, PLAIN, 100, 49), Ok(true));
    assert_eq!(calls::bid_in_force(8, 100, 49, true), Ok(100));
    assert_eq!(calls::bid_in_force(8, 100, 49, false), Ok(49));
}

#[test]
fn remaining_components() {
    // 2: 3 × 1,000 = 3,000 below 5,000; the floor of 500.
    assert_eq!(calls::bid_test(2, PLAIN, 1_000, 4_000), Ok(false));
    assert_eq!(calls::bid_test(2, PLAIN, 1_000, 4_001), Ok(true));
    assert_eq!(calls::bid_test(2, PLAIN, 2_000, 7_000), Ok(false));
    assert_eq!(calls::bid_test(2, PLAIN, 2_000, 7_001), Ok(true));
    assert_eq!(calls::bid_test(2, PLAIN, 0, 499), Ok(false));
    assert_eq!(calls::bid_test(2, PLAIN, 0, 500), Ok(true));
    // 3: above three times the reference.
    assert_eq!(calls::bid_test(3, PLAIN, 1_000, 3_000), Ok(false));
    assert_eq!(calls::bid_test(3, PLAIN, 1_000, 3_001), Ok(true));
    for component in 4..=6 {
        assert_eq!(calls::bid_test(component, PLAIN, 60, 240), Ok(false));
        assert_eq!(calls::bid_test(component, PLAIN, 60, 241), Ok(true));
    }
    assert_eq!(calls::bid_test(7, PLAIN, 100, 200), Ok(false));
    assert_eq!(calls::bid_test(7, PLAIN, 100, 201), Ok(true));
}

#[test]
fn dispatch_rules() {
    // 15 × 20 = 300.
    assert_eq!(calls::dispatch_test(300, 20, 300, false), Ok(false));
    assert_eq!(calls::dispatch_test(301, 20, 301, false), Ok(true));
    assert_eq!(calls::dispatch_test(1_000, 1_000, 1_000, false), Ok(false));
    assert_eq!(calls::dispatch_test(1_001, 1_000, 1_001, false), Ok(true));
    assert_eq!(calls::dispatch_test(500, 1_000, 1_000, true), Ok(false));
    assert_eq!(calls::dispatch_test(501, 1_000, 1_000, true), Ok(true));
    assert_eq!(calls::dispatch_test(0, 1_000, 2_000, false), Ok(false));
    assert_eq!(calls::dispatch_test(0, 1_000, 2_001, false), Ok(true));
    assert_eq!(calls::dispatch_test(0, 1_000, 1_000, true), Ok(false));
    assert_eq!(calls::dispatch_test(0, 1_000, 1_001, true), Ok(true));
    // 3 halves of 101 is 151.5.
    assert_eq!(calls::dispatch_penalty_of_one_hour(101), Ok(152));
    assert_eq!(
        calls::dispatch_penalty_of_one_hour(100_000_000),
        Ok(150_000_000)
    );
}

//! The refusals of the smaller calls (docs/RULES.md, C).

use cases::Market;
use second::calls::{self, BidHour};

/// An hour with the largest figures.
const HOUR: BidHour = BidHour {
    market: Market::REAL_TIME.0,
    tight: true,
    constrained_hours: 8_784,
    average_price: 1_000_000,
};

/// The same in a market that there is not.
const BAD_HOUR: BidHour = BidHour { market: 2, ..HOUR };

#[test]
fn refusals_of_the_smaller_calls() {
    bids();
    times();
    withheld_and_dispatch();
    multipliers_and_penalties();
    fuel();
    days();
    default_bids();
    make_ups();
}

fn bids() {
    assert_eq!(calls::bid_test(0, HOUR, 1_000_000, 1_000_000), Ok(false));
    // 7 comes before 10 …
    assert_eq!(calls::bid_test(0, BAD_HOUR, 1_000_001, 1_000_001), Err(7));
    assert_eq!(calls::bid_test(3, BAD_HOUR, 1_000_001, 0), Err(10));
    assert_eq!(calls::bid_test(3, HOUR, 1_000_000_001, 0), Err(7));
    // … and is skipped where no such component exists.
    assert_eq!(calls::bid_test(9, HOUR, u32::MAX, 0), Err(10));
    assert_eq!(calls::bid_test(0, HOUR, 0, 1_000_001), Err(10));
    assert_eq!(calls::bid_test(2, HOUR, 0, -1), Err(10));
    let bad = BidHour {
        constrained_hours: 8_785,
        ..HOUR
    };
    assert_eq!(calls::bid_test(4, bad, 0, 0), Err(10));
    let bad = BidHour {
        average_price: 1_000_001,
        ..HOUR
    };
    assert_eq!(calls::bid_test(4, bad, 0, 0), Err(10));
}

fn times() {
    assert_eq!(
        calls::time_increases_test([1_000_000_000, 0, 0]),
        Ok([true, false, false])
    );
    assert_eq!(calls::time_increases_test([0, 0, 1_000_000_001]), Err(10));
    assert_eq!(calls::time_increases_test([0, -1_000_000_001, 0]), Err(10));
}

fn withheld_and_dispatch() {
    assert_eq!(calls::withheld_test(5_001, 5_000, 0, 0, false), Err(10));
    assert_eq!(calls::withheld_test(0, 0, 0, 0, false), Err(10));
    assert_eq!(calls::withheld_test(0, 50_001, 0, 0, false), Err(10));
    assert_eq!(calls::withheld_test(0, 1, 3_200_001, 0, false), Err(10));
    assert_eq!(calls::withheld_test(0, 1, 0, 3_200_001, false), Err(10));
    assert_eq!(
        calls::withheld_test(0, 1, 3_200_000, 3_200_000, false),
        Ok(true)
    );
    assert_eq!(calls::dispatch_test(50_001, 0, 0, false), Err(10));
    assert_eq!(calls::dispatch_test(0, 50_001, 0, false), Err(10));
    assert_eq!(calls::dispatch_test(0, 0, 3_200_001, false), Err(10));
}

fn multipliers_and_penalties() {
    assert_eq!(calls::multiplier(0, 0), Err(10));
    assert_eq!(calls::multiplier(1, 0), Err(10));
    assert_eq!(calls::multiplier(1, 2), Err(10));
    assert_eq!(calls::multiplier(457, 1), Err(10));
    for multiplier in [0, 1, 3, 5, 7] {
        assert_eq!(
            calls::withheld_penalty_of_one_hour(multiplier, 0, 0),
            Err(10)
        );
    }
    assert_eq!(calls::withheld_penalty_of_one_hour(6, 50_001, 0), Err(10));
    assert_eq!(
        calls::withheld_penalty_of_one_hour(6, 0, 1_000_001),
        Err(10)
    );
    assert_eq!(
        calls::withheld_penalty_of_one_hour(6, 50_000, 1_000_000),
        Ok(15_000_000_000)
    );
    assert_eq!(calls::dispatch_penalty_of_one_hour(100_000_001), Err(10));
}

fn fuel() {
    assert_eq!(calls::fuel_penalty(100_000_000_000_001, 0, 2), Err(10));
    assert_eq!(calls::fuel_penalty(-100_000_000_000_001, 0, 2), Err(10));
    assert_eq!(calls::fuel_penalty(0, 64_000_000_001, 2), Err(10));
    assert_eq!(calls::fuel_penalty(0, 0, 1), Err(10));
    assert_eq!(calls::fuel_penalty(0, 0, 4), Err(10));
    // 3 × 10^14 / 20 + 6.4 × 10^10
    assert_eq!(
        calls::fuel_penalty(100_000_000_000_000, 64_000_000_000, 3),
        Ok(15_064_000_000_000)
    );
}

fn days() {
    assert_eq!(calls::fuel_day_window(36_524, 36_523), Ok(true));
    assert_eq!(calls::period_of(36_524), Ok(200));
    for beyond in [36_525, 36_526, 1_000_000, 1_000_001, u32::MAX] {
        assert_eq!(calls::fuel_day_window(beyond, 36_524), Err(10), "{beyond}");
        assert_eq!(calls::fuel_day_window(36_524, beyond), Err(10), "{beyond}");
        assert_eq!(calls::period_of(beyond), Err(10), "{beyond}");
    }
}

fn default_bids() {
    assert_eq!(calls::mitigated_span(9, 0, 0, 0), Err(10));
    assert_eq!(calls::mitigated_span(1, 2, 0, 0), Err(10));
    assert_eq!(calls::mitigated_span(1, 0, 1 << 24, 0), Err(10));
    assert_eq!(calls::mitigated_span(1, 0, 0, 25), Err(10));
    assert_eq!(calls::bid_in_force(0, 1_000_001, 1_000_001, true), Err(7));
    assert_eq!(calls::bid_in_force(9, 1_000_001, 0, true), Err(10));
    assert_eq!(calls::bid_in_force(4, 0, -1, true), Err(10));
    let with_c = calls::bid_in_force_with_correct_reference;
    assert_eq!(with_c(1, BAD_HOUR, 0, 1_000_001, 0, true), Err(7));
    assert_eq!(with_c(1, BAD_HOUR, 1_000_001, 0, 0, true), Err(7));
    assert_eq!(with_c(1, BAD_HOUR, 0, 0, 0, true), Err(10));
    assert_eq!(with_c(9, HOUR, u32::MAX, u32::MAX, 0, true), Err(10));
}

fn make_ups() {
    assert_eq!(
        calls::make_up_of_one_hour(1_000_001, 0, 0, 1_000_001, 0),
        Err(7)
    );
    assert_eq!(calls::make_up_of_one_hour(0, 1_000_001, 0, 0, 0), Err(7));
    assert_eq!(calls::make_up_of_one_hour(0, 1, -1_000_001, 0, 0), Err(10));
    assert_eq!(calls::make_up_of_one_hour(0, 1, 0, -1_000_001, 0), Err(10));
    assert_eq!(calls::make_up_of_one_hour(0, 1, 0, 0, 50_001), Err(10));
}

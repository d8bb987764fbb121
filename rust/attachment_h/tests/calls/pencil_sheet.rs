//! The pencil sheet (docs/RULES.md, C18).

use attachment_h::{self as proved, BidHour, Cents, Component, Market, Mask, Multiplier, Times};

#[test]
fn pencil_sheet() {
    withheld();
    energy_bids();
    times_and_maximum();
    fuel();
    windows_and_periods();
    default_bids();
}

fn withheld() {
    assert_eq!(
        proved::withheld_fails(500, 5_000, 500, 20_000, false),
        Ok(false)
    );
    assert_eq!(
        proved::withheld_fails(501, 5_000, 501, 20_000, false),
        Ok(true)
    );
    assert_eq!(
        proved::withheld_penalty(Multiplier(2), &[501], &[4_005]),
        Ok(Cents(200_651))
    );
    assert_eq!(
        proved::withheld_penalty(Multiplier(2), &[501], &[-100]),
        Ok(Cents(0))
    );
    assert_eq!(proved::multiplier(4, 3), Ok(Multiplier(4)));
    assert_eq!(proved::multiplier(4, 4), Ok(Multiplier(6)));
}

fn energy_bids() {
    let day_ahead = BidHour::default();
    assert_eq!(
        proved::bid_fails(Component::ENERGY, 625, 2_500, day_ahead),
        Ok(false)
    );
    assert_eq!(
        proved::bid_fails(Component::ENERGY, 624, 2_500, day_ahead),
        Ok(true)
    );
    assert_eq!(
        proved::bid_fails(Component::ENERGY, 5_000, 15_000, day_ahead),
        Ok(false)
    );
    assert_eq!(
        proved::bid_fails(Component::ENERGY, 5_000, 15_001, day_ahead),
        Ok(true)
    );
    let tight = BidHour {
        market: Market::REAL_TIME,
        tight: true,
        average_price: 5_000,
        constrained_hours: 1_000,
    };
    assert_eq!(
        proved::bid_fails(Component::ENERGY, 2_000, 2_876, tight),
        Ok(false)
    );
    assert_eq!(
        proved::bid_fails(Component::ENERGY, 2_000, 2_877, tight),
        Ok(true)
    );
}

fn times_and_maximum() {
    assert_eq!(proved::times_fail(120, 120, 120), Ok(Times::default()));
    let all = Times {
        start_up: true,
        minimum_run: true,
        minimum_down: true,
    };
    assert_eq!(proved::times_fail(121, 120, 120), Ok(all));
    let day_ahead = BidHour::default();
    assert_eq!(
        proved::bid_fails(Component::MAXIMUM_PARAMETER, 100, 50, day_ahead),
        Ok(false)
    );
    assert_eq!(
        proved::bid_fails(Component::MAXIMUM_PARAMETER, 100, 49, day_ahead),
        Ok(true)
    );
}

fn fuel() {
    assert_eq!(
        proved::fuel_penalty(5_000_000, 0, Multiplier(2)),
        Ok(Cents(500_000))
    );
    assert_eq!(
        proved::fuel_penalty(4_999_990, 0, Multiplier(2)),
        Ok(Cents(0))
    );
    assert_eq!(
        proved::fuel_penalty(4_999_990, 0, Multiplier(3)),
        Ok(Cents(749_999))
    );
    assert_eq!(
        proved::fuel_penalty(-10_000_000, 2_000_000, Multiplier(2)),
        Ok(Cents(1_000_000))
    );
    assert_eq!(
        proved::fuel_penalty(-10_000_000, 2_000_000, Multiplier(3)),
        Ok(Cents(500_000))
    );
}

fn windows_and_periods() {
    // 1 March and 1 September 2021, then windows that begin on the last day of a February.
    for (day, earlier, counts) in [
        (7_914, 7_914, false),
        (7_914, 7_913, true),
        (7_914, 7_730, true),
        (7_914, 7_729, false),
        (608, 424, true),
        (608, 423, false),
        (605, 424, true),
        (605, 422, false),
        (1_704, 1_520, true),
        (1_704, 1_519, false),
        (0, 0, false),
    ] {
        let answer = proved::fuel_day_counts(day, earlier);
        assert_eq!(answer, Ok(counts), "day {day}, earlier {earlier}");
    }
    // 30 April and 1 May 2000, 26 November 2021, 31 December 2099.
    for (day, period) in [(0, 0), (120, 0), (121, 1), (8_000, 44), (36_524, 200)] {
        assert_eq!(proved::period_of(day), Ok(period), "day {day}");
    }
}

fn default_bids() {
    assert_eq!(
        proved::make_up(9_000, 5_000, 1_000, 2_000, 6_000),
        Ok(Cents(100_000))
    );
    assert_eq!(proved::mitigated_span(Mask(1 << 10), 8), Ok(Mask(0x3_FC00)));
    assert_eq!(
        proved::mitigated_span(Mask(1 << 5 | 1 << 10), 8),
        Ok(Mask(0x1FE0))
    );
}

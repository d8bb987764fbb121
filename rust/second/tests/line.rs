//! The line of a component: its figures, what it refuses, and a walk over the bids beside it.

mod common;

use common::{PLAIN, TIGHT};
use second::calls::{self, BidHour};

#[test]
fn figures() {
    let no_hours = BidHour {
        constrained_hours: 0,
        ..TIGHT
    };
    for (component, hour, reference, line) in [
        (0, PLAIN, 625, 2_500),
        (0, PLAIN, 624, 2_499),
        (0, PLAIN, 5_000, 15_000),
        (0, TIGHT, 2_000, 2_876),
        (0, no_hours, 2_000, 8_000),
        // Cut to the bid's range.
        (0, PLAIN, 995_000, 1_000_000),
        (2, PLAIN, 0, 499),
        (3, PLAIN, 400_000_000, 1_000_000_000),
        (8, PLAIN, 100, 50),
        (8, PLAIN, 101, 51),
        (8, PLAIN, 0, 0),
        // Below the floor, which the tight clause lacks.
        (1, TIGHT, 0, 876),
        (4, PLAIN, 60, 240),
        (5, TIGHT, 0, 180),
        (6, PLAIN, 1_000_000_000, 1_000_000_000),
        (7, PLAIN, 0, 0),
        (8, PLAIN, 1_000_000_000, 500_000_000),
    ] {
        let what = format!("component {component}, r {reference}, {hour:?}");
        assert_eq!(calls::line(component, hour, reference), Ok(line), "{what}");
    }
}

#[test]
fn refused_with_16_alone() {
    let most = BidHour {
        constrained_hours: 8_784,
        average_price: 1_000_000,
        ..TIGHT
    };
    let bad_hours = [
        BidHour { market: 2, ..most },
        BidHour {
            constrained_hours: 8_785,
            ..most
        },
        BidHour {
            average_price: 1_000_001,
            ..most
        },
    ];
    for component in 0..=8 {
        let highest = if component <= 2 {
            1_000_000
        } else {
            1_000_000_000
        };
        assert!(calls::line(component, most, highest).is_ok());
        assert_eq!(calls::line(component, most, highest + 1), Err(16));
        for bad in bad_hours {
            assert_eq!(calls::line(component, bad, 0), Err(16), "{bad:?}");
            assert_eq!(calls::line(component, bad, u32::MAX), Err(16), "{bad:?}");
        }
    }
    for component in [9, 255] {
        assert_eq!(calls::line(component, PLAIN, 0), Err(16));
        assert_eq!(calls::line(component, bad_hours[0], u32::MAX), Err(16));
    }
}

/// The bids around the line of a small reference, which is never above both 4 × r and 2,499.
fn bids_near(component: u8, reference: u32) -> std::ops::RangeInclusive<i32> {
    let lowest = if component <= 1 { -50 } else { 0 };
    lowest..=4 * reference as i32 + 3_000
}

/// The highest bid of a walk that passes, for component 8 the lowest, and how often the test switches.
fn walk(component: u8, hour: BidHour, reference: u32) -> (i32, usize) {
    let passing = |bid: &i32| calls::bid_test(component, hour, reference, *bid) == Ok(false);
    let bids = bids_near(component, reference);
    let line = if component == 8 {
        bids.clone().find(passing)
    } else {
        bids.clone().rfind(passing)
    };
    let verdicts: Vec<bool> = bids.map(|bid| passing(&bid)).collect();
    let switches = verdicts.windows(2).filter(|two| two[0] != two[1]).count();
    (line.expect("a bid that passes"), switches)
}

#[test]
fn one_switch() {
    let day_ahead = BidHour { market: 0, ..TIGHT };
    let one_hour = BidHour {
        constrained_hours: 1,
        ..TIGHT
    };
    let no_increase = BidHour {
        average_price: 0,
        ..TIGHT
    };
    let references = (0..=200).chain(620..=630).chain(1_660..=1_670);
    for reference in references.chain([2_000, 3_333, 3_334]) {
        for hour in [PLAIN, TIGHT, day_ahead, one_hour, no_increase] {
            for component in 0..=8 {
                let what = format!("component {component}, r {reference}, {hour:?}");
                let (line, switches) = walk(component, hour, reference);
                assert_eq!(calls::line(component, hour, reference), Ok(line), "{what}");
                // No bid is below half of nothing.
                let expected = usize::from(component != 8 || reference > 0);
                assert_eq!(switches, expected, "{what}");
            }
        }
    }
}

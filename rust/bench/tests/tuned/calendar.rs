//! Every day of the calendar: its capability period, and the window in which a fuel penalty before it counts.

use bench::tuned;
use cases::calendar::{FIRST_DAY_BEYOND, window_start};
use cases::{Case, Event, Generated, Kind, Market, Past, Random, Row, Unit};
use second::Outcome;

use crate::{both, number_of};

/// A fuel event, and a fuel penalty of the past.
fn fuel_case(past_day: u32, day: u32) -> Generated {
    let unit = Unit {
        unit: 5,
        group: 9,
        capability: 1_000,
        ..Unit::default()
    };
    let changes = (1, 600_000, 0);
    Generated {
        case: Case {
            units: vec![unit],
            past: vec![Past::of_day(9, Kind::FUEL, Market::DAY_AHEAD, past_day)],
            events: vec![Event::fuel(day, Market::REAL_TIME, 5, changes, &[])],
            ..Case::default()
        },
        correction: Vec::new(),
    }
}

#[test]
fn the_window_of_every_day() {
    let mut raised = [0, 0];
    for day in 0..FIRST_DAY_BEYOND {
        // The first day of the window, and the day before it.
        let start = window_start(day);
        for past_day in [start.saturating_sub(1), start] {
            let what = format!("{past_day} on {day}");
            let input = fuel_case(past_day, day).input();
            let mut rows = [0; 128];
            let outcome = tuned::settle(&input.file, &[], &mut rows);
            assert_eq!(outcome, both(&[7; 128], &input, &what));
            let counts = (start..day).contains(&past_day);
            let multiplier = Row::of(&rows, 0).multiplier.0;
            assert_eq!(multiplier, if counts { 3 } else { 2 }, "{what}");
            raised[usize::from(counts)] += 1;
        }
    }
    println!("{raised:?} not raised and raised");
    assert!(raised.into_iter().all(|times| times > 36_000));
}

#[test]
fn the_period_of_every_day() {
    let mut random = Random::new(307);
    let (mut accepted, mut refused) = (0, 0);
    for day in 0..FIRST_DAY_BEYOND {
        let mut generated = fuel_case(day, day);
        let own = generated.case.events[0].period;
        let input = generated.input();
        assert_eq!(number_of(&input, "its own period"), 0);
        accepted += 1;
        for period in [own.wrapping_sub(1), own + 1, random.bits() as u16 | 0x100] {
            let places = if random.chance(1, 2) {
                (period, own)
            } else {
                (own, period)
            };
            (
                generated.case.events[0].period,
                generated.case.past[0].period,
            ) = places;
            assert_eq!(number_of(&generated.input(), "another period"), 19);
            refused += 1;
        }
    }
    println!("{accepted} periods, {refused} that are not their day's");
    assert_eq!((accepted, refused), (36_525, 3 * 36_525));
}

#[test]
fn days_after_the_calendar() {
    let beyond = [FIRST_DAY_BEYOND, 65_535, 65_536, 1_000_000];
    for day in beyond {
        for [past_day, day] in [[0, day], [day, 0]] {
            let input = fuel_case(past_day, day).input();
            assert_eq!(both(&[7; 128], &input, "a late day"), Outcome::Refused(18));
        }
    }
}

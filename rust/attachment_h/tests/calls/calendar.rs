//! The calls of fuel windows and of capability periods (docs/RULES.md, C12 and C13), also beside the calendar of the
//! cases.

use attachment_h::{self as proved, Refused};
use cases::Random;
use cases::calendar::{FIRST_DAY_BEYOND, period_of, window_start};
use second::calls;

use crate::{Answers, answer, word};

/// Words on and after the first day beyond the calendar, also such as 16 bits would take for good days.
const BEYOND: [u32; 9] = [
    36_525,
    36_526,
    36_890,
    65_536,
    65_537 + 8_000,
    1_000_000,
    1_000_001,
    1 << 31,
    u32::MAX,
];

/// Whether a penalty of a day counts on another, in which both implementations agree.
fn counts(answers: &mut Answers, day: u32, earlier: u32) -> Result<bool, Refused> {
    let counts = proved::fuel_day_counts(day, earlier);
    let expected = answer(calls::fuel_day_window(day, earlier));
    answers.same(counts, expected, || format!("day {day}, earlier {earlier}"));
    counts
}

#[test]
fn every_fuel_window() {
    let mut answers = Answers::default();
    for day in 0..FIRST_DAY_BEYOND {
        let first = window_start(day);
        // From before the longest window, which has 184 days, to after the day.
        for earlier in day.saturating_sub(190)..(day + 4).min(FIRST_DAY_BEYOND) {
            let at_an_edge = [first, day].iter().any(|edge| edge.abs_diff(earlier) < 4);
            if at_an_edge || day.is_multiple_of(11) {
                let within = (first..day).contains(&earlier);
                assert_eq!(counts(&mut answers, day, earlier), Ok(within));
            }
        }
    }
    for beyond in BEYOND {
        for day in [0, 1, 8_000, 36_524, beyond] {
            assert_eq!(counts(&mut answers, day, beyond), Err(Refused(10)));
            assert_eq!(counts(&mut answers, beyond, day), Err(Refused(10)));
        }
    }
    answers.done("fuel_day_counts", false);
}

#[test]
fn any_two_days() {
    let mut random = Random::new(207);
    let mut answers = Answers::default();
    for _ in 0..200_000 {
        let edges = [0, 181, 182, 8_000, 36_524, 36_525, 1_000_000];
        let [day, earlier] = [0; 2].map(|_| match random.below(2) {
            0 => word(&mut random, &edges),
            _ => random.below(FIRST_DAY_BEYOND as usize) as u32,
        });
        if let Ok(within) = counts(&mut answers, day, earlier) {
            assert_eq!(within, (window_start(day)..day).contains(&earlier));
        }
    }
    answers.done("fuel_day_counts", false);
}

#[test]
fn the_period_of_every_day() {
    let mut answers = Answers::default();
    for day in (0..FIRST_DAY_BEYOND + 1_000).chain(BEYOND) {
        let expected = answer(calls::period_of(day));
        let period = proved::period_of(day);
        answers.same(period, expected, || format!("day {day}"));
        let of_the_cases = if day < FIRST_DAY_BEYOND {
            Ok(period_of(day))
        } else {
            Err(Refused(10))
        };
        assert_eq!(period, of_the_cases, "day {day}");
    }
    answers.done("period_of", false);
}

#[test]
fn counted_periods() {
    let mut answers = Answers::default();
    for own in [0, 1, 2, 3, 44, 256, 65_534, 65_535] {
        for period in 0..=65_535 {
            let window = calls::capability_period_window(own, period);
            for (back, expected) in [
                (2, answer(window.map(|window| window.n3))),
                (1, answer(window.map(|window| window.n2))),
            ] {
                answers.same(proved::period_counts(back, own, period), expected, || {
                    format!("{back} back from {own}: {period}")
                });
            }
        }
    }
    for back in (0..=255).filter(|back| !matches!(back, 1 | 2)) {
        let refused = proved::period_counts(back, 44, 44);
        answers.same(refused, Err(Refused(10)), || format!("{back} back"));
    }
    answers.done("period_counts", false);
}

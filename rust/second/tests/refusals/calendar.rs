//! 18 and 19: days beyond the calendar and periods that aren't their days', and their place among the numbers.

use cases::calendar::first_of_period;
use cases::case::ROW_BYTES;
use cases::{Case, Component, Event, Kind, Market, Past};
use second::listing;

use crate::common::version_2::{EVENTS, REFERENCES, UNITS, Version2};
use crate::common::{number, number_of, past_fuel, past_withheld};
use crate::events::{kinds, of_event};
use crate::records::entry;
use crate::{full, of_bytes};

/// The numbers of a past entry of either kind and of an event of every kind with this day and period.
fn numbers_of(day: u32, period: u16) -> [u8; 6] {
    let past = |kind| {
        entry(Past {
            kind,
            day,
            period,
            ..past_withheld(7, Market::DAY_AHEAD, 44)
        })
    };
    let [withheld, dispatch, fuel, bids] = kinds().map(|event| {
        of_event(Event {
            day,
            period,
            ..event
        })
    });
    [
        past(Kind::WITHHELD),
        past(Kind::FUEL),
        withheld,
        dispatch,
        fuel,
        bids,
    ]
}

#[test]
fn days_up_to_36_524() {
    for (day, period, expected) in [
        (0, 0, 0),
        (36_524, 200, 0),
        // Whatever the period, that of the date included.
        (36_525, 200, 18),
        (36_525, 201, 18),
        (36_525, 0, 18),
        (40_000, 219, 18),
        // Its lower two bytes are those of 36,524.
        (65_536 + 36_524, 200, 18),
        (1_000_000, 0, 18),
        (1_000_000, 5_476, 18),
    ] {
        assert_eq!(numbers_of(day, period), [expected; 6], "{day} {period}");
    }
    for day in [1_000_001, u32::MAX] {
        assert_eq!(numbers_of(day, 0), [9, 9, 10, 10, 10, 10], "{day}");
    }
}

#[test]
fn only_the_period_of_the_day() {
    for (day, period) in [
        (0, 1),
        (0, 65_535),
        (120, 1),
        (121, 0),
        (8_000, 0),
        (8_000, 43),
        (8_000, 45),
        // Its lower byte is that of 44.
        (8_000, 300),
        (36_524, 199),
        (36_524, 201),
    ] {
        assert_eq!(numbers_of(day, period), [19; 6], "{day} {period}");
    }
    for period in 1..=200 {
        let first = first_of_period(period);
        assert_eq!(numbers_of(first, period), [0; 6], "{period}");
        assert_eq!(numbers_of(first, period - 1), [19; 6], "{period}");
        assert_eq!(numbers_of(first - 1, period), [19; 6], "{period}");
        assert_eq!(numbers_of(first - 1, period - 1), [0; 6], "{period}");
    }
}

/// A case with past entries of both kinds before its two events.
fn dated() -> Case {
    let mut case = full();
    case.past.push(past_fuel(7, Market::REAL_TIME, 7_999));
    case
}

/// The records of [`dated`] that have a day and a period.
const DATED: usize = 4;

/// Gives a record a number that it breaks: 18 by its day, 19 by its period.
fn break_at(case: &mut Case, record: usize, number: u8) {
    let (day, period) = match record {
        0 | 1 => {
            let entry = &mut case.past[record];
            (&mut entry.day, &mut entry.period)
        }
        _ => {
            let event = &mut case.events[record - 2];
            (&mut event.day, &mut event.period)
        }
    };
    match number {
        18 => *day = 36_525,
        _ => *period += 1,
    }
}

/// Each of the two numbers at each record.
fn broken() -> impl Iterator<Item = (u8, usize)> {
    [18, 19]
        .into_iter()
        .flat_map(|number| (0..DATED).map(move |record| (number, record)))
}

#[test]
fn eighteen_anywhere_comes_before_19() {
    assert_eq!(number(&dated(), &[]), 0);
    for (expected, first) in broken() {
        let mut case = dated();
        break_at(&mut case, first, expected);
        assert_eq!(number(&case, &[]), expected, "record {first}");
        assert_eq!(listing(&case.to_bytes()), format!("refused {expected}\n"));
        for second in (0..DATED).filter(|&second| second != first) {
            let mut case = case.clone();
            break_at(&mut case, second, 19);
            assert_eq!(number(&case, &[]), expected, "records {first} and {second}");
        }
    }
}

/// What makes a case break a number.
type Fault = (u8, fn(&mut Case));

const FAULTS: [Fault; 9] = [
    (5, |case| case.past = vec![case.past[0]; 257]),
    (6, |case| case.units[0].area = 2),
    (7, |case| case.references[0].component = Component(9)),
    (9, |case| case.past[1].kind = Kind(2)),
    (10, |case| case.events[1].market = Market(2)),
    (11, |case| case.events.push(case.events[1])),
    (12, |case| case.events[1].unit = 99),
    (13, |case| {
        let cells = [(0, 5_001, 0)];
        case.events[0] = Event::withheld(8_000, Market::DAY_AHEAD, 12, &cells);
    }),
    (14, |case| case.references.clear()),
];

#[test]
fn after_10_and_before_11() {
    for (old, fault) in FAULTS {
        let mut faulty = dated();
        fault(&mut faulty);
        assert_eq!(number(&faulty, &[]), old);
        for (new, record) in broken() {
            let mut case = faulty.clone();
            break_at(&mut case, record, new);
            let expected = if old <= 10 { old } else { new };
            assert_eq!(number(&case, &[]), expected, "{old}, {new} at {record}");
        }
    }
}

#[test]
fn after_1_to_4_and_8_and_before_15() {
    for (new, record) in broken() {
        let mut case = dated();
        break_at(&mut case, record, new);
        let file = case.to_bytes();
        assert_eq!(of_bytes(&file), new);
        assert_eq!(of_bytes(&file[..35]), 1);
        for (at, value, old) in [(0, 9, 2), (2, 3, 3), (4, 40, 4)] {
            let mut changed = file.clone();
            changed[at] = value;
            assert_eq!(of_bytes(&changed), old, "{new} at {record}");
        }
        assert_eq!(number_of(&file, &[0; 7], 2 * ROW_BYTES), 8);
        assert_eq!(number_of(&file, &[], 0), new);
    }
    assert_eq!(number_of(&dated().to_bytes(), &[], 0), 15);
}

#[test]
fn after_17() {
    for (new, record) in broken() {
        let mut case = dated();
        break_at(&mut case, record, new);
        let copy = Version2::of(&case.to_bytes(), u32::from);
        assert_eq!(of_bytes(&copy.to_bytes()), new);
        for section in [UNITS, REFERENCES, EVENTS] {
            let old = copy.with_old_field(section, 0, 1);
            assert_eq!(of_bytes(&old.to_bytes()), 17, "{new} at {record}");
        }
    }
}

#[test]
fn a_day_above_1_000_000_is_9_or_10_beside_18_and_19() {
    for (new, record) in broken() {
        let mut case = dated();
        break_at(&mut case, record, new);
        let mut past = case.clone();
        past.past.push(Past {
            day: 1_000_001,
            ..past.past[1]
        });
        assert_eq!(number(&past, &[]), 9, "{new} at {record}");
        case.events.push(Event {
            day: 1_000_001,
            ..case.events[1]
        });
        assert_eq!(number(&case, &[]), 10, "{new} at {record}");
    }
}

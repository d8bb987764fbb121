//! Days and capability periods of past entries and events: a day of 2100 or later is 18, a period that is not its day's
//! 19, and 18 comes first wherever the two stand.

use attachment_h::Kind;
use cases::calendar::{first_of_period, period_of};
use cases::case::{Section, put_u16, put_u32};
use cases::{Case, Event, Input, Market, Past};

use crate::{Checks, name, one, past, place, references, unit};

/// A case with one past entry or one event, and its offset; `above` is the number of a day above 1,000,000 in it.
struct Dated {
    what: String,
    input: Input,
    at: usize,
    above: u8,
}

impl Dated {
    /// The days, each written over the record's.
    fn days(&self, checks: &mut Checks, days: &[(i64, u8)]) {
        checks.field(&self.input, self.at + 8, 4, days, &self.what);
    }

    /// The periods, each written over the record's.
    fn periods(&self, checks: &mut Checks, periods: &[(i64, u8)]) {
        checks.field(&self.input, self.at + 4, 2, periods, &self.what);
    }
}

/// A past entry of each kind and an event of each kind, on that day.
fn each_record(day: u32) -> Vec<Dated> {
    let past = [Kind::WITHHELD, Kind::FUEL].map(|kind| {
        let case = Case {
            past: vec![Past::of_day(7, kind, Market::DAY_AHEAD, day)],
            ..Case::default()
        };
        let what = format!("past entry of kind {}", kind.0);
        (what, Input::new(&case, &[]), Section::Past, 9)
    });
    let events = [
        Event::withheld(day, Market::DAY_AHEAD, 12, &[]),
        Event::dispatch(day, 12, &[]),
        Event::fuel(day, Market::REAL_TIME, 12, (0, 0, 0), &[]),
        Event::bids(day, Market::DAY_AHEAD, 12, 1, 0, &[]),
    ]
    .map(|event| (name(&event), one(event), Section::Events, 10));
    let dated = |(what, input, section, above)| Dated {
        at: place(&input, section, 0),
        what,
        input,
        above,
    };
    past.into_iter().chain(events).map(dated).collect()
}

#[test]
fn the_last_day_and_those_after_it() {
    let mut checks = Checks::default();
    for record in each_record(36_524) {
        record.days(&mut checks, &[(36_524, 0)]);
        // Whatever the period is.
        for period in [0, 200, 201, 65_535] {
            let mut of_period = record.input.clone();
            put_u16(&mut of_period.file, record.at + 4, period);
            let record = Dated {
                input: of_period,
                what: format!("{}, period {period}", record.what),
                ..record
            };
            let beyond = [36_525, 36_526, 65_536, 102_060, 999_999, 1_000_000];
            record.days(&mut checks, &beyond.map(|day| (day, 18)));
            let above = [1_000_001, 1 << 20, 1 << 31, (1 << 31) + 36_524, 0xFFFF_FFFF];
            record.days(&mut checks, &above.map(|day| (day, record.above)));
        }
    }
    checks.done(540, "the last day and those after it");
}

#[test]
fn every_period_of_a_day() {
    let mut checks = Checks::default();
    let [past, .., event] = &each_record(8_000)[..] else {
        panic!("past entries and events");
    };
    for record in [past, event] {
        for period in 0..=65_535 {
            let number = if period == 44 { 0 } else { 19 };
            record.periods(&mut checks, &[(period, number)]);
        }
    }
    checks.done(262_144, "every period of a day");
}

#[test]
fn first_and_last_days_of_every_period() {
    let mut checks = Checks::default();
    let last_of = |period: u16| first_of_period(period + 1).min(36_525) - 1;
    for period in 0..=200 {
        let (first, last) = (first_of_period(period), last_of(period));
        let number = i64::from(period);
        for record in [first, last].into_iter().flat_map(each_record) {
            let own_and_next = [(number, 0), (number + 1, 19), (number + 2, 19)];
            record.periods(&mut checks, &own_and_next);
            let (first, last) = (i64::from(first), i64::from(last));
            let beyond = if period == 200 { 18 } else { 19 };
            record.days(&mut checks, &[(first, 0), (last, 0), (last + 1, beyond)]);
            if period > 0 {
                record.periods(&mut checks, &[(number - 1, 19)]);
                record.days(&mut checks, &[(first - 1, 19), (0, 19)]);
            }
        }
    }
    checks.done(43_344, "first and last days of every period");
}

#[test]
fn every_day() {
    let mut checks = Checks::default();
    let days: Vec<u32> = (0..36_525).collect();
    for some in days.chunks(200) {
        let of_day = |&day: &u32| Past::of_day(7, Kind::FUEL, Market::REAL_TIME, day);
        let case = Case {
            units: vec![unit(12)],
            past: some.iter().map(of_day).collect(),
            events: some
                .iter()
                .map(|&day| Event::withheld(day, Market::DAY_AHEAD, 12, &[]))
                .collect(),
            ..Case::default()
        };
        let what = format!("days {} to {}", some[0], some[some.len() - 1]);
        checks.expect(&Input::new(&case, &[]), 0, &what);
    }
    checks.done(183, "every day");
}

/// Two past entries and an event of kinds 1, 2 and 4, with the offsets of the five records.
fn five_records() -> (Input, [usize; 5]) {
    let case = Case {
        units: [5, 12, 13].map(unit).to_vec(),
        references: references(),
        past: [1, 3].map(past).to_vec(),
        events: vec![
            Event::withheld(8_000, Market::DAY_AHEAD, 12, &[]),
            Event::dispatch(8_001, 12, &[]),
            Event::bids(8_002, Market::DAY_AHEAD, 12, 0, 0, &[]),
        ],
        ..Case::default()
    };
    let input = Input::new(&case, &[]);
    let records = [
        (Section::Past, 0),
        (Section::Past, 1),
        (Section::Events, 0),
        (Section::Events, 1),
        (Section::Events, 2),
    ];
    let offsets = records.map(|(section, record)| place(&input, section, record));
    (input, offsets)
}

/// A day of 2100 in the record at an offset.
fn beyond(input: &Input, at: usize) -> Input {
    let mut changed = input.clone();
    put_u32(&mut changed.file, at + 8, 36_525);
    changed
}

/// Another period than its day's in the record at an offset.
fn other_period(input: &Input, at: usize) -> Input {
    let mut changed = input.clone();
    put_u16(&mut changed.file, at + 4, 43);
    changed
}

#[test]
fn eighteen_anywhere_before_nineteen_anywhere() {
    let mut checks = Checks::default();
    let (input, records) = five_records();
    checks.expect(&input, 0, "five records");
    for first in records {
        checks.expect(&beyond(&input, first), 18, "18 alone");
        checks.expect(&other_period(&input, first), 19, "19 alone");
        for second in records {
            let both = other_period(&beyond(&input, first), second);
            checks.expect(&both, 18, "18 and 19");
            let twice = other_period(&other_period(&input, first), second);
            checks.expect(&twice, 19, "19 twice");
        }
    }
    checks.done(122, "18 anywhere before 19 anywhere");
}

/// The case of five records with another fault, its number, and whether that is checked before 18.
fn other_faults() -> Vec<(Input, u8, bool)> {
    let (input, [past, _, _, dispatch, bids]) = five_records();
    let with_word = |at: usize, value: u32| {
        let mut changed = input.clone();
        put_u32(&mut changed.file, at, value);
        changed
    };
    let first = |section| place(&input, section, 0);
    let correction = Input {
        correction: vec![0; 7],
        ..input.clone()
    };
    let no_rows = Input {
        rows_len: 0,
        ..input.clone()
    };
    // Unit and period stand in one word.
    let of_unit = |unit: u32| with_word(bids + 2, unit + (44 << 16));
    vec![
        (with_word(first(Section::Units) + 8, 0), 6, true),
        (
            with_word(first(Section::References) + 4, 1_000_001),
            7,
            true,
        ),
        (correction, 8, true),
        (with_word(past + 8, 1_000_001), 9, true),
        (with_word(dispatch + 12, 1 << 24), 10, true),
        (with_word(bids + 8, 7_999), 11, false),
        (of_unit(99), 12, false),
        (with_word(dispatch + 24, 5_001), 13, false),
        (of_unit(5), 14, false),
        (no_rows, 15, false),
    ]
}

#[test]
fn between_ten_and_eleven() {
    let mut checks = Checks::default();
    let (_, records) = five_records();
    for (other, number, sooner) in other_faults() {
        checks.expect(&other, number, "alone");
        let expected = |own: u8| if sooner { number } else { own };
        for (place, record) in records.into_iter().enumerate() {
            let what = format!("{number}, and record {place}");
            checks.expect(&other_period(&other, record), expected(19), &what);
            // The day of the first past entry is what breaks 9.
            if (number, place) != (9, 0) {
                checks.expect(&beyond(&other, record), expected(18), &what);
            }
        }
    }
    checks.done(207, "between 10 and 11");
}

#[test]
fn periods_written_out() {
    // 30 April and 1 May 2000, 31 October and 1 November 2021, 31 December 2099.
    for (day, period) in [
        (0, 0),
        (120, 0),
        (121, 1),
        (7_974, 43),
        (7_975, 44),
        (36_524, 200),
    ] {
        assert_eq!(period_of(day), period);
        let mut checks = Checks::default();
        for record in each_record(day) {
            record.periods(&mut checks, &[(i64::from(period), 0), (300, 19)]);
        }
        checks.done(24, "periods written out");
    }
}

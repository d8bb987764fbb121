//! Unit numbers: in version 2 the old two bytes are 0 and the number has six digits, which is 17, in a correction 8; in
//! version 1 every two bytes are a number.

use attachment_h::{Component, Kind};
use cases::case::{Section, sections_of};
use cases::{Case, Event, Input, Market, Reference, Version};

use crate::{Checks, past, place, plain_events, reference, unit};

/// 12 and numbers that have its two low bytes, with others between them and after them.
const NUMBERS: [u32; 6] = [5, 12, 13, 65_548, 131_084, 700_022];

/// References of component 0 and 3 of the units but the first and the last.
fn some_references() -> Vec<Reference> {
    let listed = &NUMBERS[1..5];
    let of = |&unit: &u32| [0, 3].map(|component| reference(unit, component));
    listed.iter().flat_map(of).collect()
}

/// A case of version 2 with records of every section.
fn wide(events: Vec<Event>) -> Input {
    let case = Case {
        version: Version::Two,
        units: NUMBERS.map(unit).to_vec(),
        references: some_references(),
        past: [1, 3].map(past).to_vec(),
        events,
    };
    Input::new(&case, &[])
}

/// An event of each kind, of units with the same low bytes.
fn some_events() -> Vec<Event> {
    let day_ahead = Market::DAY_AHEAD;
    vec![
        Event::withheld(1, day_ahead, 12, &[]),
        Event::withheld(1, day_ahead, 65_548, &[]),
        Event::dispatch(1, 131_084, &[]),
        Event::fuel(1, day_ahead, 700_022, (0, 0, 0), &[]),
        Event::bids(1, day_ahead, 12, 0, 0, &[]),
        Event::bids(1, day_ahead, 65_548, 3, 0, &[]),
    ]
}

/// Numbers above 999,999: the first, each high bit alone, those whose low bytes are listed, and the last.
fn above(number: u8) -> Vec<(i64, u8)> {
    let bits = (20..32).map(|bit| 1 << bit);
    let listed = [(1 << 24) + 12, (1 << 31) + 700_022];
    let some = [1_000_000, 1_000_001, 0xFFFF_FFFF];
    let all = some.into_iter().chain(bits).chain(listed);
    all.map(|value| (value, number)).collect()
}

/// The numbered sections, with the offsets of the old two bytes and of the number.
const PLACES: [(Section, usize, usize); 3] = [
    (Section::Units, 0, 24),
    (Section::References, 0, 8),
    (Section::Events, 2, 312),
];

#[test]
fn old_fields_and_numbers_over_their_limit() {
    let mut checks = Checks::default();
    let input = wide(some_events());
    checks.expect(&input, 0, "every section");
    for (section, old, number) in PLACES {
        let bytes = sections_of(&input.file)[section as usize].len();
        let width = number + 4;
        assert_eq!(bytes % width, 0);
        for record in 0..bytes / width {
            let at = place(&input, section, record);
            let what = format!("{} {record}", section.name());
            checks.zero(&input, at + old, 2, 17, &what);
            checks.field(&input, at + old, 2, &[(12, 17), (65_535, 17)], &what);
            checks.field(&input, at + number, 4, &above(17), &what);
        }
    }
    checks.done(700, "old fields and numbers over their limit");
}

#[test]
fn numbers_of_a_unit() {
    let mut checks = Checks::default();
    let input = wide(Vec::new());
    let number = |record| place(&input, Section::Units, record) + 24;
    // Strictly rising by all four bytes.
    let first = [(0, 0), (5, 0), (11, 0), (12, 6), (65_535, 6), (65_541, 6)];
    checks.field(&input, number(0), 4, &first, "number, first");
    checks.field(&input, number(0), 4, &[(999_999, 6)], "number, first");
    let last = [
        (0, 6),
        (65_549, 6),
        (131_084, 6),
        (131_085, 0),
        (196_608, 0),
        (999_999, 0),
    ];
    checks.field(&input, number(5), 4, &last, "number, last");
    // A unit alone may have any number of six digits.
    let alone = Case {
        version: Version::Two,
        units: vec![unit(12)],
        ..Case::default()
    };
    let alone = Input::new(&alone, &[]);
    let at = place(&alone, Section::Units, 0) + 24;
    for number in [0, 1, 255, 256, 65_535, 65_536, 65_537, 99_999, 100_000] {
        checks.field(&alone, at, 4, &[(number, 0)], "number of a unit alone");
    }
    checks.field(&alone, at, 4, &[(999_998, 0), (999_999, 0)], "six digits");
    checks.field(&alone, at, 4, &above(17), "more than six digits");
    checks.done(40, "numbers of a unit");
}

/// What a reference's number breaks; `number` is 7 or 8.
fn reference_numbers(number: u8) -> [(usize, Vec<(i64, u8)>); 4] {
    let unlisted = |value| (value, number);
    let first = [0, 4, 6, 11, 13, 65_541, 131_077].map(unlisted);
    let last = [
        131_083, 131_085, 65_550, 196_620, 12, 700_021, 765_558, 999_999,
    ]
    .map(unlisted);
    [
        (0, [&first[..], &[(5, 0), (12, 0)]].concat()),
        (7, [&last[..], &[(131_084, 0), (700_022, 0)]].concat()),
        // (12, 3) before (13, 0), and (13, 3) before (65_548, 0): the unit comes first.
        (
            2,
            vec![(13, 0), (12, number), (5, number), (65_548, number)],
        ),
        (4, vec![(65_548, 0), (12, number), (13, number)]),
    ]
}

#[test]
fn numbers_of_a_reference() {
    let mut checks = Checks::default();
    let input = wide(Vec::new());
    for (record, values) in reference_numbers(7) {
        let at = place(&input, Section::References, record) + 8;
        checks.field(&input, at, 4, &values, "number of a reference");
    }
    checks.done(26, "numbers of a reference");
}

#[test]
fn numbers_of_the_correction() {
    let mut checks = Checks::default();
    let mut input = wide(Vec::new());
    input.correction = sections_of(&input.file)[1].clone();
    for (record, values) in reference_numbers(8) {
        checks.correction_field(&input, 12 * record + 8, 4, &values, "number");
    }
    for record in 0..some_references().len() {
        checks.correction_field(&input, 12 * record + 8, 4, &above(8), "number");
        let bits = (0..16).map(|bit| (1 << bit, 8));
        let old: Vec<(i64, u8)> = [(0, 0), (12, 8), (65_535, 8)]
            .into_iter()
            .chain(bits)
            .collect();
        checks.correction_field(&input, 12 * record, 2, &old, "old field");
    }
    checks.done(300, "numbers of the correction");
}

#[test]
fn numbers_of_an_event() {
    let mut checks = Checks::default();
    for event in plain_events() {
        let bids = event.kind() == Kind::BIDS;
        let Component(component) = event.component();
        let input = wide(vec![event]);
        // Component 0 and 3 have references, of all units but the first and the last.
        let referenced = !bids || matches!(component, 0 | 3);
        let in_it = if referenced { 0 } else { 14 };
        let beside = if bids { 14 } else { 0 };
        let values = [
            (12, in_it),
            (13, in_it),
            (65_548, in_it),
            (131_084, in_it),
            (5, beside),
            (700_022, beside),
            (0, 12),
            (14, 12),
            (65_541, 12),
            (196_620, 12),
            (44_662, 12),
            (999_999, 12),
        ];
        let at = place(&input, Section::Events, 0) + 312;
        checks.field(&input, at, 4, &values, "number of an event");
        checks.field(&input, at, 4, &above(17), "number of an event");
    }
    checks.done(600, "numbers of an event");
}

#[test]
fn order_by_number() {
    let mut checks = Checks::default();
    let numbers = [0, 12, 255, 256, 65_535, 65_536, 65_548, 131_072, 999_999];
    let of = |events: Vec<Event>| Case {
        version: Version::Two,
        units: numbers.map(unit).to_vec(),
        references: numbers.map(|number| reference(number, 0)).to_vec(),
        events,
        ..Case::default()
    };
    type Make = fn(u32) -> Event;
    let makes: [Make; 4] = [
        |unit| Event::withheld(1, Market::DAY_AHEAD, unit, &[]),
        |unit| Event::dispatch(1, unit, &[]),
        |unit| Event::fuel(1, Market::REAL_TIME, unit, (0, 0, 0), &[]),
        |unit| Event::bids(1, Market::REAL_TIME, unit, 0, 0, &[]),
    ];
    for make in makes {
        for first in numbers {
            for second in numbers {
                let number = if first < second { 0 } else { 11 };
                let input = Input::new(&of(vec![make(first), make(second)]), &[]);
                checks.expect(&input, number, &format!("{first} before {second}"));
            }
        }
    }
    checks.done(324, "order by number");
}

#[test]
fn the_check_first_reached_decides() {
    let mut checks = Checks::default();
    let input = wide(some_events());
    let at = |section| place(&input, section, 0);
    let (unit, reference, event) = (
        at(Section::Units),
        at(Section::References),
        at(Section::Events),
    );
    // 17 is found in the last event, however early the other fault stands.
    let mut late = input.clone();
    let last = place(&input, Section::Events, 5);
    late.file[last + 2] = 1;
    checks.expect(&late, 17, "17 in the last event");
    for (at, value, what) in [
        (unit + 4, 2, "area 2"),
        (reference + 2, 9, "component 9"),
        (at(Section::Past) + 2, 2, "past kind 2"),
        (event, 5, "kind 5"),
        (event + 1, 2, "market 2"),
        (event + 8, 2, "out of order"),
        (event + 27, 1, "above the capability"),
    ] {
        let mut both = late.clone();
        both.file[at] = value;
        checks.expect(&both, 17, what);
    }
    let mut both = late.clone();
    both.correction = vec![0; 7];
    checks.expect(&both, 17, "a correction of 7 bytes");
    both.rows_len = 0;
    checks.expect(&both, 17, "no rows");
    for (at, value, number) in [(0, 3, 2), (2, 5, 3), (4, 37, 4)] {
        let mut both = late.clone();
        both.file[at] = value;
        checks.expect(&both, number, "a fault of the header");
    }
    both.file.truncate(35);
    checks.expect(&both, 1, "35 bytes");
    checks.done(14, "the check first reached decides");
}

#[test]
fn never_17_in_version_1() {
    // Every two bytes are a number, of the unit, of its reference, its correction and its events.
    let mut checks = Checks::default();
    for number in 0..=65_535 {
        let entry = reference(number, 0);
        let case = Case {
            units: vec![unit(number)],
            references: vec![entry],
            events: vec![Event::bids(1, Market::DAY_AHEAD, number, 0, 0, &[])],
            ..Case::default()
        };
        let input = Input::new(&case, &[entry]);
        checks.expect(&input, 0, "a number of version 1");
        if number % 256 == 12 {
            alone_in_version_1(&mut checks, &input, number);
        }
    }
    assert_eq!(checks.copies, 65_536 + 256 * 4 * 6);
    checks.done(130_000, "never 17 in version 1");
}

/// Another number in one record alone.
fn alone_in_version_1(checks: &mut Checks, input: &Input, number: u32) {
    let place = |section| place(input, section, 0);
    for other in [0, 255, 256, 32_768, 65_534, 65_535] {
        let number_if = |refused: u8| if other == number { 0 } else { refused };
        let value = i64::from(other);
        // The reference is then of no listed unit.
        checks.field(
            input,
            place(Section::Units),
            2,
            &[(value, number_if(7))],
            "unit",
        );
        let reference = place(Section::References);
        checks.field(input, reference, 2, &[(value, number_if(7))], "reference");
        let event = place(Section::Events) + 2;
        checks.field(input, event, 2, &[(value, number_if(12))], "event");
        checks.correction_field(input, 0, 2, &[(value, number_if(8))], "correction");
    }
}

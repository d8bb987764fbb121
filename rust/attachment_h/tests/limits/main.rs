//! Every limit of a case on and just past its edge. The numbers are written here, from docs/RULES.md; the second
//! implementation has to agree as well, and the version 2 copy of a version 1 input has the same number. What version 2
//! has of its own, the unit numbers of six digits, is in `numbers.rs`.

mod calendar;
mod events;
mod layout;
mod numbers;
mod records;
mod whole_case;

use attachment_h::{Component, Kind, Refused, check};
use cases::case::{Section, section_place, version_of};
use cases::{Case, Event, Input, Market, Past, Reference, Unit, Version};
use second::refusal;

/// The checks of one test, counted, and of them those of copies.
#[derive(Default)]
struct Checks {
    all: usize,
    copies: usize,
}

impl Checks {
    /// The number of an input, and of its version 2 copy where it has one.
    fn expect(&mut self, input: &Input, number: u8, what: &str) {
        self.one(input, number, what);
        if let Some(copy) = input.version_2_copy() {
            self.one(&copy, number, &format!("{what}, copied"));
            self.copies += 1;
        }
    }

    fn one(&mut self, input: &Input, number: u8, what: &str) {
        let got = check(&input.file, &input.correction, input.rows_len);
        let expected = match number {
            0 => Ok(()),
            number => Err(Refused(number)),
        };
        assert_eq!(got, expected, "{what}");
        assert_eq!(
            refusal(&input.file, &input.correction, input.rows_len),
            number,
            "second implementation, {what}"
        );
        self.all += 1;
    }

    /// Puts each value into a field of the file and expects its number.
    fn field(&mut self, input: &Input, at: usize, bytes: usize, values: &[(i64, u8)], what: &str) {
        for &(value, number) in values {
            let mut changed = input.clone();
            changed.file[at..at + bytes].copy_from_slice(&value.to_le_bytes()[..bytes]);
            self.expect(&changed, number, &format!("{what}: {value}"));
        }
    }

    /// The same in the correction.
    fn correction_field(
        &mut self,
        input: &Input,
        at: usize,
        bytes: usize,
        values: &[(i64, u8)],
        what: &str,
    ) {
        for &(value, number) in values {
            let mut changed = input.clone();
            changed.correction[at..at + bytes].copy_from_slice(&value.to_le_bytes()[..bytes]);
            self.expect(&changed, number, &format!("correction, {what}: {value}"));
        }
    }

    /// A byte or word that has to be 0: every single bit of it is refused.
    fn zero(&mut self, input: &Input, at: usize, bytes: usize, number: u8, what: &str) {
        self.bits(input, at, bytes, 0..8 * bytes as u32, number, what);
    }

    /// Each of these bits of a field, alone.
    fn bits(
        &mut self,
        input: &Input,
        at: usize,
        bytes: usize,
        bits: std::ops::Range<u32>,
        number: u8,
        what: &str,
    ) {
        self.field(input, at, bytes, &[(0, 0)], what);
        for bit in bits {
            self.field(input, at, bytes, &[(1 << bit, number)], what);
        }
    }

    fn done(self, least: usize, what: &str) {
        println!(
            "{what}: {} checks, {} of them of copies",
            self.all, self.copies
        );
        assert!(self.all >= least, "{what}: only {} checks", self.all);
    }
}

/// Within ±limit, as a signed word of 32 bits.
fn signed(limit: i64, number: u8) -> [(i64, u8); 7] {
    [
        (0, 0),
        (limit, 0),
        (-limit, 0),
        (limit + 1, number),
        (-limit - 1, number),
        (i32::MAX.into(), number),
        (i32::MIN.into(), number),
    ]
}

/// 0 to the limit, as a word of 32 bits.
fn at_most(limit: i64, number: u8) -> [(i64, u8); 6] {
    [
        (0, 0),
        (limit, 0),
        (limit + 1, number),
        (1 << 31, number),
        ((1 << 31) + limit, number),
        (u32::MAX.into(), number),
    ]
}

fn unit(number: u32) -> Unit {
    Unit {
        unit: number,
        group: 7,
        area: 0,
        capability: 5_000,
        response_rate: 100,
        average_price: 5_000,
        constrained_hours: 1_000,
    }
}

fn reference(unit: u32, component: u8) -> Reference {
    Reference {
        unit,
        component: Component(component),
        value: 1_000,
    }
}

/// References of every component of units 12 and 13.
fn references() -> Vec<Reference> {
    [12, 13]
        .into_iter()
        .flat_map(|unit| (0..9).map(move |component| reference(unit, component)))
        .collect()
}

fn past(kind: u8) -> Past {
    Past::of_day(7, Kind(kind), Market::DAY_AHEAD, 8_000)
}

/// The periods of a record of day 8,000, which is in period 44.
const PERIODS: [(i64, u8); 7] = [
    (44, 0),
    (0, 19),
    (43, 19),
    (45, 19),
    (44 + 256, 19),
    (44 + (1 << 15), 19),
    (65_535, 19),
];

/// The days of a record of period 44, which is 1 November 2021 to 30 April 2022; `number` is that of a day above
/// 1,000,000.
fn days(number: u8) -> [(i64, u8); 13] {
    [
        (8_000, 0),
        (7_975, 0),
        (8_155, 0),
        (7_974, 19),
        (8_156, 19),
        (0, 19),
        (36_524, 19),
        (36_525, 18),
        (1_000_000, 18),
        (1_000_001, number),
        (1 << 31, number),
        ((1 << 31) + 8_000, number),
        (u32::MAX.into(), number),
    ]
}

/// Units, references and past entries, and no event that could read them.
fn records() -> Input {
    records_in(Version::One)
}

/// The same in a version.
fn records_in(version: Version) -> Input {
    let case = Case {
        version,
        units: [5, 12, 13, 20, 22].map(unit).to_vec(),
        references: references(),
        past: [1, 3, 1].map(past).to_vec(),
        ..Case::default()
    };
    Input::new(&case, &[])
}

/// One event with the units and references that it may need.
fn one(event: Event) -> Input {
    let case = Case {
        units: [5, 12, 13, 20, 22].map(unit).to_vec(),
        references: references(),
        events: vec![event],
        ..Case::default()
    };
    Input::new(&case, &[])
}

/// An event of each kind, market and component, with nothing but zeros in its cells.
fn plain_events() -> Vec<Event> {
    let mut events = Vec::new();
    for market in [Market::DAY_AHEAD, Market::REAL_TIME] {
        events.push(Event::withheld(8_000, market, 12, &[]));
        if market == Market::REAL_TIME {
            events.push(Event::dispatch(8_000, 12, &[]));
        }
        events.push(Event::fuel(8_000, market, 12, (0, 0, 0), &[]));
        for component in 0..9 {
            events.push(Event::bids(8_000, market, 12, component, 0, &[]));
        }
    }
    events
}

fn name(event: &Event) -> String {
    let (_, Kind(kind), Market(market), _, Component(component)) = event.order();
    format!("kind {kind}, market {market}, component {component}")
}

/// Where a record begins.
fn place(input: &Input, section: Section, record: usize) -> usize {
    let (offset, _) = section_place(&input.file, section as usize);
    offset + section.width(version_of(&input.file)) * record
}

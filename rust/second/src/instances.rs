//! What N3 and N2 of an event count, record by record.

use crate::case_file::{Case, Conduct, Violation};
use crate::settlement::{Row, unit_of};
use crate::terms::Market;

/// Bytes for a bit of each of 200 events.
const EVENT_BITS_BYTES: usize = 25;
/// Bytes for a bit of each of 256 past entries.
const PAST_BITS_BYTES: usize = 32;
/// Bytes of both lists of both counts.
pub const INSTANCES_BYTES: usize = 2 * (EVENT_BITS_BYTES + PAST_BITS_BYTES);

/// The records that a count counted beside the event itself, by their places in the file, rising.
#[derive(Clone, Debug, Default, PartialEq, Eq)]
pub struct Counted {
    /// Events of the file.
    pub events: Vec<usize>,
    /// Past entries.
    pub past: Vec<usize>,
}

/// What an instance counted; of any other event nothing.
#[derive(Clone, Debug, Default, PartialEq, Eq)]
pub struct Instances {
    /// By N3.
    pub three: Counted,
    /// By N2.
    pub two: Counted,
}

impl Counted {
    /// The count: "1, and 1 more for each".
    pub fn count(&self) -> u16 {
        1 + (self.events.len() + self.past.len()) as u16
    }
}

impl Instances {
    /// The lists as bits: record j is bit j % 8 of byte j / 8 of its list.
    pub fn to_bytes(&self) -> [u8; INSTANCES_BYTES] {
        let mut bytes = Vec::with_capacity(INSTANCES_BYTES);
        for counted in [&self.three, &self.two] {
            bytes.extend(bits_of(&counted.events, EVENT_BITS_BYTES));
            bytes.extend(bits_of(&counted.past, PAST_BITS_BYTES));
        }
        bytes.try_into().expect("two lists of each count")
    }
}

fn bits_of(places: &[usize], length: usize) -> Vec<u8> {
    let mut bytes = vec![0; length];
    for place in places {
        bytes[place / 8] |= 1 << (place % 8);
    }
    bytes
}

/// What N3 and N2 of an event counted beside the rows, whose flags make instances; None where the
/// event is none.
pub fn instances(case: &Case, rows: &[Row], event: usize) -> Option<Instances> {
    is_instance(case, rows, event).then(|| Instances {
        three: counted(case, rows, event, 2),
        two: counted(case, rows, event, 1),
    })
}

/// "A withheld event is one where its impact mark is 1 and at least one of its hours is flagged."
fn is_instance(case: &Case, rows: &[Row], event: usize) -> bool {
    match case.events[event].conduct {
        Conduct::Withheld { impact, .. } => impact && !rows[event].flags.is_empty(),
        _ => false,
    }
}

/// The instances that stand earlier and the past entries of the same group and market, in the
/// event's own period or one of so many before it.
fn counted(case: &Case, rows: &[Row], event: usize, back: i32) -> Counted {
    let own_group = unit_of(case, event).group;
    let own = &case.events[event];
    let counts = |group: u16, market: Market, period: u16| {
        let periods_before = i32::from(own.period) - i32::from(period);
        group == own_group && market == own.market && (0..=back).contains(&periods_before)
    };
    let earlier_counts = |&earlier: &usize| {
        let other = &case.events[earlier];
        is_instance(case, rows, earlier)
            && counts(unit_of(case, earlier).group, other.market, other.period)
    };
    let past_counts = |&entry: &usize| {
        let past = case.past[entry];
        past.violation == Violation::Withheld && counts(past.group, past.market, past.period)
    };
    Counted {
        events: (0..event).filter(earlier_counts).collect(),
        past: (0..case.past.len()).filter(past_counts).collect(),
    }
}

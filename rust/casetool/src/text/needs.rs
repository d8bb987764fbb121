//! What the lines of a text need of each other: an event of its unit's line, and an event in a
//! Constrained Area of its own. Units may stand after their events, so that this is looked at last.

use std::collections::{BTreeSet, HashSet};

use super::line::Word;
use super::mistakes::Mistakes;
use crate::record::fields;
use crate::record::needs::Shape;

/// The line of a unit.
pub struct UnitLine<'a> {
    /// The unit number.
    pub number: u32,
    /// The area.
    pub area: u8,
    /// The keys that it has.
    pub keys: BTreeSet<&'a str>,
    /// Its last word.
    pub last: Word<'a>,
}

/// The line of an event.
pub struct EventLine<'a> {
    /// What says how it is read.
    pub shape: Shape,
    /// The unit number.
    pub unit: u32,
    /// The keys that it has.
    pub keys: BTreeSet<&'a str>,
    /// Its last word.
    pub last: Word<'a>,
}

/// What the lines of events and of their units lack. A key that several events read is missing once.
pub fn units_and_events(units: &[UnitLine<'_>], events: &[EventLine<'_>], mistakes: &mut Mistakes) {
    let mut asked = HashSet::new();
    for event in events {
        for unit in units.iter().filter(|unit| unit.number == event.unit) {
            on_event(event, unit, mistakes);
            let keys = event.shape.keys_of_unit(unit.area);
            for key in keys.iter().filter(|key| !unit.keys.contains(*key)) {
                if asked.insert((unit.last.line, *key)) {
                    mistakes.add(unit.last.missing(format!(
                        "expected the key {key}, which the event of line {} reads",
                        event.last.line
                    )));
                }
            }
        }
    }
}

fn on_event(event: &EventLine<'_>, unit: &UnitLine<'_>, mistakes: &mut Mistakes) {
    let asked = fields::words_of_event(event.shape)
        .into_iter()
        .find(|field| event.shape.area_needs(unit.area, field) && !event.keys.contains(field.key));
    if let Some(field) = asked {
        mistakes.add(event.last.missing(format!(
            "expected the key {}, none for no hours: unit {} is in a Constrained Area (line {})",
            field.key, unit.number, unit.last.line
        )));
    }
}

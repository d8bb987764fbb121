//! What a record is called in a sentence: by its number from 0, and by what people know it by.

use attachment_h::layout::{Section, Version, u16_at};
use attachment_h::{Component, Kind, Market};

use super::Part;
use crate::record::event::Event;
use crate::text::words;

/// A record of a section or of a correction; of another part there are none.
pub fn of(part: Part, version: Version, record: usize, bytes: &[u8]) -> String {
    match part {
        Part::Section(Section::Units) => {
            let unit = Section::Units.unit_number(version, bytes);
            format!("units, record {record} (unit {unit})")
        }
        Part::Section(Section::References) => reference("references", version, record, bytes),
        Part::Correction => reference("correction", version, record, bytes),
        Part::Section(Section::Past) => format!(
            "past, record {record} (group {}, {}, {})",
            u16_at(bytes, 0),
            words::kind(Kind(bytes[2])),
            words::market(Market(bytes[3]))
        ),
        Part::Section(Section::Events) => {
            format!("event {record} ({})", Event::of(version, bytes))
        }
        Part::Header | Part::Rows => String::new(),
    }
}

fn reference(name: &str, version: Version, record: usize, bytes: &[u8]) -> String {
    let unit = Section::References.unit_number(version, bytes);
    let component = words::component(Component(bytes[2]));
    format!("{name}, record {record} (unit {unit}, {component})")
}

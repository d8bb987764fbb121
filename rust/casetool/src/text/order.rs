//! The order of the records of a text: units, references and events are sorted as a case has them, and two that are
//! equal are a mistake. Past entries stay as they are.

use attachment_h::Component;
use attachment_h::layout::{Section, Version};

use super::line::Word;
use super::mistakes::Mistakes;
use super::source::Record;
use super::words;
use crate::record::event::Event;

/// What the line `order as-written` says: the records of a text stand as they do in the file.
pub const AS_WRITTEN: &str = "as-written";

/// Sorts the records of a text.
pub fn sort(version: Version, sections: &mut [Vec<Record<'_>>; 4], mistakes: &mut Mistakes) {
    for section in [Section::Units, Section::References, Section::Events] {
        let records = &mut sections[section as usize];
        let key = |record: &Record<'_>| key(version, section, &record.bytes);
        records.sort_by_key(key);
        for pair in records.windows(2) {
            if key(&pair[0]) == key(&pair[1]) {
                mistakes.add(equal(version, section, &pair[1], pair[0].first));
            }
        }
    }
}

/// Whether the records of a section rise strictly, as a case has them.
pub fn rises<'r>(
    version: Version,
    section: Section,
    mut records: impl Iterator<Item = &'r [u8]>,
) -> bool {
    let key = |record| key(version, section, record);
    let Some(mut last) = records.next() else {
        return true;
    };
    section == Section::Past
        || records.all(|record| {
            let before = std::mem::replace(&mut last, record);
            key(before) < key(record)
        })
}

/// What the records of a section rise by: numbers in the order in which they count.
fn key(version: Version, section: Section, record: &[u8]) -> [u32; 5] {
    match section {
        Section::Units => [section.unit_number(version, record), 0, 0, 0, 0],
        Section::References => {
            let number = section.unit_number(version, record);
            [number, u32::from(record[2]), 0, 0, 0]
        }
        Section::Past => [0; 5],
        Section::Events => {
            let (day, kind, market, unit, component) = Event::of(version, record).order();
            [
                day,
                u32::from(kind.0),
                u32::from(market.0),
                unit,
                u32::from(component.0),
            ]
        }
    }
}

/// That a record is there already.
fn equal(
    version: Version,
    section: Section,
    record: &Record<'_>,
    before: Word<'_>,
) -> super::line::TextError {
    let bytes = &record.bytes;
    let unit = section.unit_number(version, bytes);
    let what = match section {
        Section::Units => format!("unit {unit}"),
        Section::References => format!(
            "the reference of unit {unit}, {}",
            words::component(Component(bytes[2]))
        ),
        _ => format!("the event of {}", Event::of(version, bytes)),
    };
    record.first.wrong(format!(
        "{what} is there twice, in line {} and here",
        before.line
    ))
}

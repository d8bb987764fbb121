//! Numbers 1 to 5: the length, the header and its pairs.

use attachment_h::layout::{HEADER_BYTES, Section, Version, pair, u16_at};

use super::{Part, Place};
use crate::text::amounts::{bytes, number as number_of};

fn place(at: usize, sentence: String) -> Place {
    Place {
        part: Part::Header,
        record: 0,
        at,
        sentence,
    }
}

/// Number 1: the length of the file.
pub fn length(file: &[u8]) -> Place {
    let length = bytes(file.len());
    place(
        0,
        format!("the file: its length is {length}; expected 36 to 65,000"),
    )
}

/// Numbers 2 and 3: the version and the section count.
pub fn fixed(file: &[u8], number: u8) -> Option<Place> {
    let (name, at) = match number {
        2 => ("version", 0),
        _ => ("section count", 2),
    };
    let value = u16_at(file.get(..HEADER_BYTES)?, at);
    let (right, expected) = match number {
        2 => (Version::of(value).is_some(), "1 or 2"),
        _ => (value == 4, "4"),
    };
    let shown = number_of(u64::from(value));
    let sentence = format!("the header: {name} is {shown}; expected {expected}");
    (!right).then(|| place(at, sentence))
}

/// Number 4: the first pair that doesn't follow on, or the end of the last.
pub fn pairs(file: &[u8]) -> Option<Place> {
    let mut end = HEADER_BYTES as u64;
    let mut before = "the header ends".to_string();
    for section in Section::ALL {
        file.get(..HEADER_BYTES)?;
        let (offset, length) = pair(file, section);
        let name = section.name();
        if offset != end {
            let (offset, end) = (number_of(offset), number_of(end));
            let sentence =
                format!("the header: the offset of {name} is {offset}; {before} at {end}");
            return Some(place(4 + 8 * section as usize, sentence));
        }
        end = offset + length;
        before = format!("the section before it, {name}, ends");
    }
    let length = file.len() as u64;
    let sentence = format!(
        "the header: the last section, events, ends at {}; the file at {}",
        number_of(end),
        number_of(length)
    );
    (end != length).then(|| place(32, sentence))
}

/// Number 5: the first section of no whole number of records, or of too many.
pub fn sections(file: &[u8]) -> Option<Place> {
    let version = Version::of(u16_at(file.get(..HEADER_BYTES)?, 0))?;
    for section in Section::ALL {
        let length = pair(file, section).1;
        let (name, bytes) = (section.name(), section.width(version) as u64);
        let at = 8 + 8 * section as usize;
        let shown = number_of(length);
        if !length.is_multiple_of(bytes) {
            let version = super::in_version(version);
            let sentence = format!(
                "the header: the length of {name} is {shown}; expected a multiple of {bytes}{version}"
            );
            return Some(place(at, sentence));
        }
        let (count, most) = (length / bytes, section.most());
        if count > most as u64 {
            let sentence = format!(
                "the header: the length of {name} is {shown}, {} records; expected at most {most}",
                number_of(count)
            );
            return Some(place(at, sentence));
        }
    }
    None
}

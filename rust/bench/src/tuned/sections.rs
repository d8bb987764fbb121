//! The four sections of a file and their records, in either version: the numbers 1 to 5.

use super::words::{u16_at, u32_at};

const HEADER_BYTES: usize = 36;
const LARGEST_FILE: usize = 65_000;
const HIGHEST_UNIT_NUMBER: u32 = 999_999;

/// Bytes of a record that both versions have, and the most records there may be.
pub const UNIT_BYTES: usize = 24;
pub const REFERENCE_BYTES: usize = 8;
pub const PAST_BYTES: usize = 12;
pub const EVENT_BYTES: usize = 312;
pub const MOST_UNITS: usize = 64;
pub const MOST_REFERENCES: usize = 256;
pub const MOST_PAST: usize = 256;
pub const MOST_EVENTS: usize = 200;

/// Bytes at the end of a record that names a unit, by version: version 1 has the number within the record, in the old
/// field; version 2 adds it, and has 0 there.
pub const ADDED_IN_1: usize = 0;
pub const ADDED_IN_2: usize = 4;

/// A record that names a unit.
pub struct Record<'a, const N: usize> {
    /// The bytes that both versions have.
    pub bytes: &'a [u8; N],
    /// The number of the unit.
    pub unit: u32,
    /// Whether that is 17.
    pub misnumbered: bool,
}

/// The records of a section, with the old field at a place. Each version has a loop of its own.
#[inline(always)]
pub fn records<const N: usize, const ADDED: usize>(
    section: &[u8],
    old_field: usize,
) -> impl Iterator<Item = Record<'_, N>> {
    section.chunks_exact(N + ADDED).filter_map(move |record| {
        let (bytes, added) = record.split_first_chunk::<N>()?;
        let old = u16_at(bytes, old_field);
        Some(match added.first_chunk::<ADDED_IN_2>() {
            None => Record {
                bytes,
                unit: old,
                misnumbered: false,
            },
            Some(number) => Record {
                bytes,
                unit: u32::from_le_bytes(*number),
                misnumbered: (old != 0) | (u32::from_le_bytes(*number) > HIGHEST_UNIT_NUMBER),
            },
        })
    })
}

/// The sections of a file, of whole records and no more than there may be.
pub struct Sections<'a> {
    /// Bytes that the version adds.
    pub added: usize,
    pub units: &'a [u8],
    pub references: &'a [u8],
    pub past: &'a [[u8; PAST_BYTES]],
    pub events: &'a [u8],
}

impl<'a> Sections<'a> {
    /// The sections of a file, or which of the numbers 1 to 5 it breaks first.
    pub fn of(file: &'a [u8]) -> Result<Sections<'a>, u8> {
        let (header, records) = file.split_first_chunk::<HEADER_BYTES>().ok_or(1)?;
        if file.len() > LARGEST_FILE {
            return Err(1);
        }
        let added = match u16_at(header, 0) {
            1 => ADDED_IN_1,
            2 => ADDED_IN_2,
            _ => return Err(2),
        };
        if u16_at(header, 2) != 4 {
            return Err(3);
        }
        let [units, references, past, events] = parts(header, records).ok_or(4)?;
        let fine = is_of_records(units, UNIT_BYTES + added, MOST_UNITS)
            && is_of_records(references, REFERENCE_BYTES + added, MOST_REFERENCES)
            && is_of_records(past, PAST_BYTES, MOST_PAST)
            && is_of_records(events, EVENT_BYTES + added, MOST_EVENTS);
        if !fine {
            return Err(5);
        }
        Ok(Sections {
            added,
            units,
            references,
            past: past.as_chunks().0,
            events,
        })
    }
}

/// The four parts that the header's pairs of offset and length cut what follows it into, if they follow on.
fn parts<'a>(header: &[u8; HEADER_BYTES], records: &'a [u8]) -> Option<[&'a [u8]; 4]> {
    let mut parts = [&records[..0]; 4];
    let mut rest = records;
    for (place, part) in parts.iter_mut().enumerate() {
        let offset = u32_at(header, 4 + 8 * place) as usize;
        let length = u32_at(header, 8 + 8 * place) as usize;
        if offset != HEADER_BYTES + records.len() - rest.len() {
            return None;
        }
        (*part, rest) = rest.split_at_checked(length)?;
    }
    rest.is_empty().then_some(parts)
}

/// Whether a section is a whole number of records, and of no more than there may be.
pub fn is_of_records(section: &[u8], width: usize, most: usize) -> bool {
    section.len() <= width * most && section.len().is_multiple_of(width)
}

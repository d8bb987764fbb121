//! Where a fault finds its place in a case, and how it is written there.

use attachment_h::layout::HIGHEST_UNIT_NUMBER;

use crate::case::{
    CELL_BYTES, EVENT_HEAD_BYTES, Input, LARGEST_FILE, ROW_BYTES, Section, Version, file_in,
    put_u32, section_place, sections_of, u32_at, version_of,
};
use crate::random::Random;

pub fn cut(input: &mut Input, length: usize) -> Option<()> {
    input.file.truncate(length);
    Some(())
}

pub fn put_byte(input: &mut Input, at: usize, value: u8) -> Option<()> {
    *input.file.get_mut(at)? = value;
    Some(())
}

pub fn put_word(input: &mut Input, at: usize, value: u32) -> Option<()> {
    put_u32(&mut input.file, at, value);
    Some(())
}

/// One over a limit, above or below 0, or as far over it as 32 bits go.
pub fn over(random: &mut Random, limit: i32) -> u32 {
    random
        .pick(&[limit + 1, -limit - 1, i32::MAX, i32::MIN])
        .cast_unsigned()
}

/// Some, if the file has room for this many bytes more.
pub fn room(input: &Input, bytes: usize) -> Option<()> {
    (input.file.len() + bytes <= LARGEST_FILE).then_some(())
}

/// Changes a section as a whole and writes pairs that follow on.
pub fn edit<T>(
    input: &mut Input,
    section: Section,
    change: impl FnOnce(&mut Vec<u8>) -> T,
) -> Option<T> {
    let mut sections = sections_of(&input.file);
    let value = change(&mut sections[section as usize]);
    input.file = file_in(version_of(&input.file), &sections);
    Some(value)
}

/// Offset and length of a section.
pub fn place(input: &Input, section: Section) -> (usize, usize) {
    section_place(&input.file, section as usize)
}

/// Bytes of a section's records.
pub fn width(input: &Input, section: Section) -> usize {
    section.width(version_of(&input.file))
}

/// The version that the case is not of.
pub fn other(version: Version) -> Version {
    match version {
        Version::One => Version::Two,
        Version::Two => Version::One,
    }
}

/// The number of the unit of the record at an offset.
pub fn number(input: &Input, section: Section, at: usize) -> u32 {
    section.unit_number(version_of(&input.file), &input.file[at..])
}

/// Writes the number of the unit of the record at an offset.
pub fn put_number(input: &mut Input, section: Section, at: usize, number: u32) -> Option<()> {
    let version = version_of(&input.file);
    section.put_unit_number(version, &mut input.file[at..], number);
    Some(())
}

/// The same in the correction.
pub fn put_correct_number(input: &mut Input, at: usize, number: u32) -> Option<()> {
    let version = version_of(&input.file);
    Section::References.put_unit_number(version, &mut input.correction[at..], number);
    Some(())
}

/// Fills a section with copies of its last record, to one more than it may have.
pub fn too_many(input: &mut Input, section: Section) -> Option<()> {
    let record = width(input, section);
    let (_, length) = place(input, section);
    let wanted = record * (section.most() + 1);
    room(input, wanted.checked_sub(length)?)?;
    edit(input, section, |bytes| {
        // another fault may have left no whole record
        let last = match bytes.len().checked_sub(record) {
            None => vec![0; record],
            Some(start) => bytes[start..].to_vec(),
        };
        while bytes.len() < wanted {
            bytes.extend(&last);
        }
    })
}

/// The offsets of a section's whole records.
pub fn records(input: &Input, section: Section) -> impl Iterator<Item = usize> + use<> {
    let (offset, length) = place(input, section);
    let width = width(input, section);
    (0..length / width).map(move |record| offset + width * record)
}

/// The offset of one of a section's records.
pub fn record(input: &Input, section: Section, random: &mut Random) -> Option<usize> {
    let count = records(input, section).count();
    (count > 0).then(|| records(input, section).nth(random.below(count)))?
}

/// The offset of one of a section's records, not the last.
pub fn record_before_another(
    input: &Input,
    section: Section,
    random: &mut Random,
) -> Option<usize> {
    let count = records(input, section).count();
    (count > 1).then(|| records(input, section).nth(random.below(count - 1)))?
}

pub fn swap_with_next(input: &mut Input, section: Section, random: &mut Random) -> Option<()> {
    let first = record_before_another(input, section, random)?;
    let bytes = width(input, section);
    input.file[first..first + 2 * bytes].rotate_left(bytes);
    Some(())
}

/// The offsets of the events whose record passes a test.
pub fn events(input: &Input, test: impl Fn(&[u8]) -> bool) -> Vec<usize> {
    records(input, Section::Events)
        .filter(|&event| test(&input.file[event..]))
        .collect()
}

/// The offset of an event of one of these kinds.
pub fn event_of(input: &Input, kinds: &[u8], random: &mut Random) -> Option<usize> {
    let places = events(input, |record| kinds.contains(&record[0]));
    places.get(random.below(places.len().max(1))).copied()
}

/// Where one of the 24 hour cells begins in an event.
pub fn any_cell(random: &mut Random) -> usize {
    EVENT_HEAD_BYTES + CELL_BYTES * random.below(24)
}

/// The offset of an event after which another day, kind or market begins, or none.
pub fn last_of_a_run(input: &Input, random: &mut Random) -> Option<usize> {
    let run = |event: usize| {
        let record = &input.file[event..];
        (u32_at(record, 8), record[0], record[1])
    };
    let places = events(input, |_| true);
    let is_last = |place: usize| {
        let next = places.get(place + 1);
        next.is_none_or(|&next| run(places[place]) != run(next))
    };
    let lasts: Vec<usize> = (0..places.len()).filter(|&place| is_last(place)).collect();
    let last = lasts.get(random.below(lasts.len().max(1)))?;
    Some(places[*last])
}

/// Whether a unit is listed.
pub fn is_listed(input: &Input, unit: u32) -> bool {
    records(input, Section::Units).any(|listed| number(input, Section::Units, listed) == unit)
}

/// A unit number above all listed ones.
pub fn unlisted_above(input: &Input) -> Option<u32> {
    let highest = match version_of(&input.file) {
        Version::One => u16::MAX.into(),
        Version::Two => HIGHEST_UNIT_NUMBER,
    };
    let listed = records(input, Section::Units).map(|unit| number(input, Section::Units, unit));
    let above = listed.max().map_or(99, |listed| listed + 1);
    (above <= highest).then_some(above)
}

/// An event of kind 1 or 2 of a listed unit, with the unit's capability.
pub fn event_with_capability(input: &Input, random: &mut Random) -> Option<(usize, u32)> {
    let event = event_of(input, &[1, 2], random)?;
    let wanted = number(input, Section::Events, event);
    let unit = records(input, Section::Units)
        .find(|&unit| number(input, Section::Units, unit) == wanted)?;
    Some((event, u32_at(&input.file, unit + 8)))
}

/// Unit and component of an event.
pub fn wanted_by(input: &Input, event: usize) -> (u32, u8) {
    let unit = number(input, Section::Events, event);
    (unit, input.file[event + 6])
}

/// Removes the reference record of this unit and component.
pub fn remove_entry(version: Version, references: &mut Vec<u8>, wanted: (u32, u8)) -> Option<()> {
    let bytes = Section::References.width(version);
    let key = |record: &[u8]| (Section::References.unit_number(version, record), record[2]);
    let place = references
        .chunks_exact(bytes)
        .position(|record| key(record) == wanted)?;
    references.drain(bytes * place..bytes * (place + 1));
    Some(())
}

/// The case's own references.
pub fn own_references(input: &Input) -> Vec<u8> {
    let (offset, length) = place(input, Section::References);
    input.file[offset..offset + length].to_vec()
}

/// Takes the case's own references for a correction where there is none.
pub fn ensure_correction(input: &mut Input) {
    if input.correction.is_empty() {
        input.correction = own_references(input);
    }
}

/// The offset of an entry of the correction.
pub fn correction_entry(input: &mut Input, random: &mut Random) -> Option<usize> {
    ensure_correction(input);
    let bytes = width(input, Section::References);
    let count = input.correction.len() / bytes;
    (count > 0).then(|| bytes * random.below(count))
}

/// Bytes that the rows of the case take.
pub fn rows_needed(input: &Input) -> usize {
    ROW_BYTES * records(input, Section::Events).count()
}

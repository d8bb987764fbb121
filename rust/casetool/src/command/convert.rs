//! `convert`: the copy of a case file, or of a correction, in another version.

use attachment_h::layout::{HEADER_BYTES, LARGEST_FILE, Section, Version, converted, file_in};

use super::arguments::Given;
use super::{Answer, Failure, alone, mistake, text};
use crate::place::{Part, names};
use crate::record::field::Field;
use crate::record::fields;
use crate::text::amounts;

/// How many records that have no copy are named.
const NAMED: usize = 20;

/// The copy of what was given, in the version that was asked for. In its own version it is the same bytes.
pub fn copy(file: &[u8], given: &Given) -> Result<Answer, Failure> {
    let to = given.to.ok_or_else(|| mistake("version to convert to"))?;
    let (from, parts) = parts(file, given)?;
    if from == to {
        return Ok(Answer::done(file));
    }
    let mut problems: Vec<String> = parts.iter().flat_map(|part| part.lost(from, to)).collect();
    if !given.is_correction {
        problems.extend(too_long(&parts, from, to));
    }
    if !problems.is_empty() {
        let (name, number) = (&given.source, to.number());
        let problems = first(problems).join("\n");
        let message = format!("{name}: there is no copy of version {number}\n{problems}");
        return Err(Failure::Message(message));
    }
    let copies = parts
        .iter()
        .map(|part| converted(part.section, part.bytes, from, to));
    let copies: Option<Vec<Vec<u8>>> = copies.collect();
    let copies = copies.ok_or_else(|| mistake("room for the numbers of this copy"))?;
    Ok(Answer::done(match <[Vec<u8>; 4]>::try_from(copies) {
        Ok(sections) => file_in(to, &sections),
        Err(correction) => correction.concat(),
    }))
}

/// Records of one width: a section of a case, or a correction.
struct Records<'a> {
    part: Part,
    section: Section,
    bytes: &'a [u8],
}

/// The version of a file, and its records: those of the four sections, or of a correction.
fn parts<'a>(file: &'a [u8], given: &Given) -> Result<(Version, Vec<Records<'a>>), Failure> {
    if given.is_correction {
        let correction = Records {
            part: Part::Correction,
            section: Section::References,
            bytes: file,
        };
        return Ok((alone::version(file, given)?, vec![correction]));
    }
    let sections = text::sections(file, given, "convert")?;
    let parts = Section::ALL.map(|section| Records {
        part: Part::Section(section),
        section,
        bytes: sections.bytes(section),
    });
    Ok((sections.version(), parts.into()))
}

impl<'a> Records<'a> {
    /// Each record with its number, from 0.
    fn all(&self, version: Version) -> impl Iterator<Item = (usize, &'a [u8])> {
        let records = self.bytes.chunks_exact(self.section.width(version));
        records.enumerate()
    }

    /// What a copy of these records would lose.
    fn lost(&self, from: Version, to: Version) -> Vec<String> {
        let mut lost = Vec::new();
        let fields = fields::number(self.section, from);
        for (place, record) in self.all(from).filter(|_| to == Version::One) {
            for field in &fields {
                let value = field.value(record);
                if let Some(why) = no_place(field, value) {
                    let name = names::of(self.part, from, place, record);
                    let value = field.form.spoken(value);
                    lost.push(format!("{name}: {} is {value}; {why}", field.name));
                }
            }
        }
        lost
    }
}

/// Why version 1 has no place for the number of a unit, or for its old number; nothing where it has.
fn no_place(field: &Field, value: i64) -> Option<&'static str> {
    match field.key {
        fields::OLD_NUMBER if value != 0 => Some("version 1 has no place for it"),
        fields::NUMBER if value > i64::from(u16::MAX) => Some("version 1 has numbers up to 65,535"),
        _ => None,
    }
}

/// The first record with which a copy is longer than a case may be.
fn too_long(parts: &[Records<'_>], from: Version, to: Version) -> Option<String> {
    let mut end = HEADER_BYTES;
    let mut over = None;
    for part in parts {
        for (place, record) in part.all(from) {
            end += part.section.width(to);
            if end > LARGEST_FILE && over.is_none() {
                over = Some(names::of(part.part, from, place, record));
            }
        }
    }
    over.map(|name| {
        format!(
            "{name}: with this record the copy is over {}; it would have {}",
            amounts::bytes(LARGEST_FILE),
            amounts::number(end as u64)
        )
    })
}

/// The first problems, and how many more there are.
fn first(mut problems: Vec<String>) -> Vec<String> {
    let more = problems.len().saturating_sub(NAMED);
    problems.truncate(NAMED);
    if more > 0 {
        problems.push(format!("and {more} more"));
    }
    problems
}

//! Where a refused case breaks the limit of its number: the first record and field in file order.
//!
//! The number comes from the proved check; only the place is looked for here.

mod calendar;
mod events;
mod header;
pub mod names;
mod numbers;
mod records;
pub mod refusal;

use attachment_h::layout::{Section, Sections, Version};

use crate::record::field::{Field, Form};
use crate::record::fields::OLD_NUMBER;
use crate::text::amounts::Measure;
use crate::text::bytes::{is_like_text, is_text, text_of, utf_16};

/// What a place is in.
#[derive(Clone, Copy, Debug, PartialEq, Eq)]
pub enum Part {
    /// The file as a whole, or its header.
    Header,
    /// A section of the file.
    Section(Section),
    /// The correction.
    Correction,
    /// The rows buffer.
    Rows,
}

/// The first place that breaks a limit.
#[derive(Clone, Debug, PartialEq, Eq)]
pub struct Place {
    /// What it is in.
    pub part: Part,
    /// The record, from 0.
    pub record: usize,
    /// The offset of the field in the record, or in the header.
    pub at: usize,
    /// The place in words, with the value and the limit.
    pub sentence: String,
}

/// What bytes were given as.
#[derive(Clone, Copy, Debug, PartialEq, Eq)]
pub enum Given {
    /// A case.
    Case,
    /// A correction.
    Correction,
}

/// What to do with a text that was given as a file; nothing of bytes that are no text.
pub fn hint(given: Given, bytes: &[u8]) -> Option<String> {
    let (what, command) = match given {
        Given::Case => ("this file", "casetool write makes a case file of it"),
        Given::Correction => (
            "the correction",
            "casetool write --correction makes a correction of it",
        ),
    };
    if let Some(name) = utf_16(bytes) {
        return Some(format!(
            "{what} looks like text in {name}: it has to be UTF-8"
        ));
    }
    if let (true, Err(error)) = (is_like_text(bytes), text_of(bytes)) {
        let (line, column) = (error.line, error.column);
        return Some(format!(
            "{what} looks like text, but line {line}, column {column} is no UTF-8"
        ));
    }
    is_text(bytes).then(|| format!("{what} looks like text: {command}"))
}

/// The place where a case breaks the limit of a number; none is a mistake of this search.
pub fn find(number: u8, file: &[u8], correction: &[u8], rows_length: usize) -> Option<Place> {
    match number {
        1 => Some(header::length(file)),
        2 | 3 => header::fixed(file, number),
        4 => header::pairs(file),
        5 => header::sections(file),
        _ => {
            let sections = Sections::of(file)?;
            match number {
                6 => records::units(&sections),
                7 => records::references(&sections),
                8 => records::correction(&sections, correction),
                9 => records::past(&sections),
                10 => events::fields(&sections),
                11 => events::order(&sections),
                12 => events::units(&sections),
                13 => events::capability(&sections),
                14 => events::references(&sections, correction),
                15 => events::rows(&sections, rows_length),
                17 => numbers::numbers(&sections),
                18 => calendar::days(&sections),
                19 => calendar::periods(&sections),
                _ => None,
            }
        }
    }
}

/// The first record of a section that breaks something, which is told with the offset of its field.
fn first_record(
    sections: &Sections<'_>,
    section: Section,
    broken: impl Fn(&[u8]) -> Option<(usize, String)>,
) -> Option<Place> {
    let part = Part::Section(section);
    let mut records = sections.records(section).enumerate();
    records.find_map(|(record, bytes)| {
        let (at, broken) = broken(bytes)?;
        let name = names::of(part, sections.version(), record, bytes);
        Some(Place {
            part,
            record,
            at,
            sentence: format!("{name}: {broken}"),
        })
    })
}

/// The first field of a record that breaks its limit, in words after its offset.
fn broken_in_words(fields: &[Field], record: &[u8]) -> Option<(usize, String)> {
    let field = broken_field(fields, record)?;
    Some((field.at, field_sentence(&field, record)))
}

/// The first field of a record that breaks its limit, in the order of its bytes.
fn broken_field(fields: &[Field], record: &[u8]) -> Option<Field> {
    fields
        .iter()
        .filter(|field| !field.limit.allows(field.value(record)))
        .min_by_key(|field| field.at)
        .copied()
}

/// A field with its value and its limit, in words.
fn field_sentence(field: &Field, record: &[u8]) -> String {
    let value = field.value(record);
    let why = match field.key {
        OLD_NUMBER => ", since version 2 has the number at the record's end",
        _ => "",
    };
    format!(
        "{} is {}; {}{why}",
        field_name(field),
        value_words(field.form, value),
        field.limit.words(|value| value_words(field.form, value))
    )
}

/// That a width is that of a version; nothing of the first, whose widths are read without it.
fn in_version(version: Version) -> String {
    match version {
        Version::One => String::new(),
        version => format!(" in version {}", version.number()),
    }
}

/// The name in docs/RULES.md, and the key of the text where it is another word.
fn field_name(field: &Field) -> String {
    let same = field.name.to_lowercase().replace(' ', "-") == field.key || field.name == field.key;
    if same || field.name == "unit number" {
        field.name.to_string()
    } else {
        format!("{} ({})", field.name, field.key)
    }
}

/// A value as it stands in the file, and as people write it where that is another.
fn value_words(form: Form, value: i64) -> String {
    match (form.spoken(value), Measure::Plain.spoken(value)) {
        (spoken, number) if spoken == number => number,
        (spoken, number) => format!("{number} ({spoken})"),
    }
}

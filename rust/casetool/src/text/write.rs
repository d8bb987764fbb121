//! From text to the bytes of a case file or of a correction.

use attachment_h::layout::{Section, Version, file_in};

use super::bytes::text_of;
use super::line::TextError;
use super::mistakes::Mistakes;
use super::needs::units_and_events;
use super::order;
use super::read::Reader;
use super::source::Positions;
use super::version::{Said, Told};

/// What a text gives.
#[derive(Clone, Debug, PartialEq, Eq)]
pub struct Written {
    /// The case file or the correction.
    pub bytes: Vec<u8>,
    /// Where its records stand in the text.
    pub positions: Positions,
    /// What is written all the same, though a case with it is refused.
    pub warnings: Vec<TextError>,
}

/// The case file of a text, of the version that it says, or of version 2 where one of its unit numbers is above 65,535.
pub fn case_file(text: &[u8]) -> Result<Written, Mistakes> {
    case_file_beside(text, &[])
}

/// The same beside the text of its correction, whose numbers count too; bytes that are no text have none.
pub fn case_file_beside(text: &[u8], correction: &[u8]) -> Result<Written, Mistakes> {
    let least = text_of(correction).map_or(Version::One, |correction| Said::by(correction).needed);
    written(Reader::case(text_of(text)?, least), file_in)
}

/// The correction of a text: its references.
pub fn correction(text: &[u8]) -> Result<Written, Mistakes> {
    correction_in(text, None)
}

/// The same in the version that is told, if one is.
pub fn correction_in(text: &[u8], told: Option<Told>) -> Result<Written, Mistakes> {
    written(Reader::correction(text_of(text)?, told), |_, sections| {
        sections[Section::References as usize].clone()
    })
}

/// The bytes of what was read, sorted where the text does not say otherwise, unless there is a mistake.
fn written(
    mut reader: Reader<'_>,
    bytes: impl Fn(Version, &[Vec<u8>; 4]) -> Vec<u8>,
) -> Result<Written, Mistakes> {
    let version = reader.version;
    units_and_events(&reader.units, &reader.events, &mut reader.mistakes);
    if !reader.as_written {
        order::sort(version, &mut reader.sections, &mut reader.mistakes);
    }
    if reader.mistakes.count() > 0 {
        return Err(reader.mistakes);
    }
    let sections = reader.sections.each_ref();
    let sections = sections.map(|records| {
        records
            .iter()
            .flat_map(|record| record.bytes.iter().copied())
            .collect()
    });
    Ok(Written {
        bytes: bytes(version, &sections),
        positions: Positions::of(&reader.sections),
        warnings: reader.warnings,
    })
}

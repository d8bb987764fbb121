//! The version of a correction without its case: its bytes have none.

use attachment_h::layout::{Section, Version};

use super::Failure;
use super::arguments::Given;
use crate::place::{self, hint};
use crate::text::{amounts, words};

const REFERENCES: Section = Section::References;

/// The version of a correction: the one that was told, or the only one that has records of which its bytes are a whole
/// number.
pub fn version(correction: &[u8], given: &Given) -> Result<Version, Failure> {
    let told = given.version;
    let asked = |version: &Version| told.is_none_or(|told| told == *version);
    let can_be = Version::ALL.into_iter().filter(asked).filter(|version| {
        let bytes = REFERENCES.width(*version);
        correction.len().is_multiple_of(bytes) && correction.len() / bytes <= REFERENCES.most()
    });
    match can_be.collect::<Vec<Version>>().as_slice() {
        [] => Err(Failure::Message(no_correction(correction, given))),
        [version] => Ok(*version),
        // No record is the same in every version.
        [version, ..] if correction.is_empty() => Ok(*version),
        versions => {
            let counts: Vec<String> = versions
                .iter()
                .map(|version| {
                    let count =
                        words::count(REFERENCES, correction.len() / REFERENCES.width(*version));
                    format!("{count} of version {}", version.number())
                })
                .collect();
            Err(Failure::Misuse(format!(
                "{}: {} are {}: --version has to say which",
                given.source,
                amounts::bytes(correction.len()),
                counts.join(" or ")
            )))
        }
    }
}

/// That bytes are no correction, with the lengths that one has.
fn no_correction(bytes: &[u8], given: &Given) -> String {
    let versions = Version::ALL.into_iter();
    let asked = versions.filter(|version| given.version.is_none_or(|told| told == *version));
    let expected: Vec<String> = asked
        .map(|version| {
            let width = REFERENCES.width(version);
            let most = amounts::number((width * REFERENCES.most()) as u64);
            let version = match version {
                Version::One => "",
                Version::Two => ", in version 2",
            };
            format!("a multiple of {width}, at most {most}{version}")
        })
        .collect();
    format!(
        "{}: no correction: it has {}; expected {}\n{}",
        given.source,
        amounts::bytes(bytes.len()),
        expected.join(", or "),
        hint(place::Given::Correction, bytes).unwrap_or_default()
    )
}

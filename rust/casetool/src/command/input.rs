//! What a command about a case is given: the case and its correction, each as a text or as a file of `write`.

use std::io::Read;

use attachment_h::layout::{Section, Sections, Version, u16_at};
use attachment_h::{ROWS_LENGTH, Refused, check};

use super::Failure;
use super::arguments::{As, Given, Source};
use super::files;
use super::help::Topic;
use crate::place::Part;
use crate::place::refusal::Refusal;
use crate::text::bytes::is_text;
use crate::text::mistakes::Mistakes;
use crate::text::source::Positions;
use crate::text::version::Told;
use crate::text::write::{self, Written};

/// A case or a correction.
pub struct Input {
    /// Where it came from.
    pub name: String,
    /// The case file or the correction.
    pub bytes: Vec<u8>,
    /// Where its records stand, if it was a text.
    positions: Option<Positions>,
}

/// A case with the correction that was named, if one was.
pub struct Inputs {
    /// The case.
    pub case: Input,
    /// The correction, which is not empty.
    pub correction: Option<Input>,
}

impl Inputs {
    /// Reads what was given.
    pub fn read(topic: Topic, given: &Given, input: &mut dyn Read) -> Result<Inputs, Failure> {
        let bytes = files::read(&given.source, input)?;
        let correction = given.correction.as_ref();
        let correction = correction.map(|source| (source, files::read(source, input)));
        let beside = match &correction {
            Some((_, Ok(bytes))) => bytes.as_slice(),
            _ => &[],
        };
        let case = read_case(given, bytes, beside)?;
        if case.positions.is_some() && is_empty_case(&case.bytes) && !given.allow_empty {
            let done = topic.allows_empty().then_some("taken");
            return Err(Failure::Message(has_no("event", &case.name, done)));
        }
        let correction = match correction {
            Some((source, bytes)) => {
                let version = version_of(&case.bytes);
                Some(read_correction(source, bytes?, version)?)
            }
            None => None,
        };
        Ok(Inputs { case, correction })
    }

    /// The version of the case, and of its correction, if its first two bytes are one.
    pub fn version(&self) -> Option<Version> {
        version_of(&self.case.bytes)
    }

    /// The bytes of the correction, none where there is none.
    pub fn correction_bytes(&self) -> &[u8] {
        self.correction
            .as_ref()
            .map_or(&[], |correction| &correction.bytes)
    }

    /// Checks the case.
    pub fn check(&self) -> Result<(), Refusal> {
        check(&self.case.bytes, self.correction_bytes(), ROWS_LENGTH)
            .map_err(|refused| self.refusal(refused))
    }

    /// A refusal of the case, with its line and column where it came from a text.
    pub fn refusal(&self, refused: Refused) -> Refusal {
        let (file, correction) = (&self.case.bytes, self.correction_bytes());
        let mut refusal = Refusal::of(refused, file, correction, ROWS_LENGTH);
        refusal.position = refusal.place.as_ref().and_then(|place| {
            let (input, section) = match place.part {
                Part::Section(section) => (&self.case, section),
                Part::Correction => (self.correction.as_ref()?, Section::References),
                Part::Header | Part::Rows => return None,
            };
            let positions = input.positions.as_ref()?;
            let position = positions.find(section, place.record, place.at)?;
            Some((input.name.clone(), position))
        });
        refusal
    }
}

/// The version that a case file begins with.
fn version_of(file: &[u8]) -> Option<Version> {
    let version = file.get(..2)?;
    Version::of(u16_at(version, 0))
}

/// The case, beside the bytes of its correction: where both are texts the numbers of both say its version.
fn read_case(given: &Given, bytes: Vec<u8>, correction: &[u8]) -> Result<Input, Failure> {
    let name = given.source.to_string();
    let is_text = match given.taken_as {
        Some(taken_as) => taken_as == As::Text,
        None => is_text(&bytes),
    };
    if !is_text {
        return Ok(file(name, bytes));
    }
    text(name, write::case_file_beside(&bytes, correction))
}

/// A correction that was named, in the version of its case: one that corrects nothing is a misuse.
fn read_correction(
    source: &Source,
    bytes: Vec<u8>,
    version: Option<Version>,
) -> Result<Input, Failure> {
    let name = source.to_string();
    let input = if is_text(&bytes) {
        text(name, write::correction_in(&bytes, version.map(Told::Case)))?
    } else {
        file(name, bytes)
    };
    if input.bytes.is_empty() {
        let problem = format!("--correction {source}: it is empty, and corrects nothing");
        return Err(Failure::Misuse(problem));
    }
    Ok(input)
}

fn file(name: String, bytes: Vec<u8>) -> Input {
    Input {
        name,
        bytes,
        positions: None,
    }
}

/// What a text gives. What `write` warns of is refused here, with its place.
fn text(name: String, written: Result<Written, Mistakes>) -> Result<Input, Failure> {
    let written = written.map_err(|mistakes| Failure::Mistakes(name.clone(), mistakes))?;
    Ok(Input {
        name,
        bytes: written.bytes,
        positions: Some(written.positions),
    })
}

/// Whether a case file that was written of a text has no event.
pub fn is_empty_case(file: &[u8]) -> bool {
    Sections::of(file).is_some_and(|sections| sections.count(Section::Events) == 0)
}

/// That a text has no record of a kind without which a failed export looks like a good text, and what `--allow-empty`
/// does with it, where the command has that option.
pub fn has_no(record: &str, name: &str, done: Option<&str>) -> String {
    let offer = done.map_or(String::new(), |done| {
        format!("; with --allow-empty it is {done} all the same")
    });
    format!("{name}: this text has no {record}{offer}")
}

//! A refused case in words: the number, its meaning, and the first record and field that break it.

use std::fmt;

use attachment_h::layout::{Section, Sections, Version, converted};
use attachment_h::{Refused, check};

use super::{Given, Place, find, hint};
use crate::text::source::Position;

/// A refusal with its place.
#[derive(Clone, Debug, PartialEq, Eq)]
pub struct Refusal {
    /// The number.
    pub refused: Refused,
    /// The first record and field that break the limit; none is a mistake of the search.
    pub place: Option<Place>,
    /// Where they stand in the text that they came from, with the name of that text.
    pub position: Option<(String, Position)>,
    /// What the bytes look like that are no case or correction.
    pub hint: Option<String>,
}

impl Refusal {
    /// The refusal of a case with its correction, for a rows buffer of this length.
    pub fn of(refused: Refused, file: &[u8], correction: &[u8], rows_length: usize) -> Refusal {
        Refusal {
            refused,
            place: find(refused.0, file, correction, rows_length),
            position: None,
            hint: match refused.0 {
                1 | 2 => hint(Given::Case, file),
                8 => hint(Given::Correction, correction)
                    .or_else(|| of_another_version(file, correction, rows_length)),
                _ => None,
            },
        }
    }

    /// The place in words.
    pub fn sentence(&self) -> &str {
        self.place.as_ref().map_or(
            "casetool finds no place for this number, which is a mistake of casetool",
            |place| &place.sentence,
        )
    }
}

/// That a refused correction would be a good one in another version than its case's.
fn of_another_version(file: &[u8], correction: &[u8], rows_length: usize) -> Option<String> {
    let (section, to) = (Section::References, Sections::of(file)?.version());
    let mut others = Version::ALL.into_iter().filter(|version| *version != to);
    let from = others.find(|from| {
        let whole = correction.len().is_multiple_of(section.width(*from));
        let copy = converted(section, correction, *from, to).filter(|_| whole);
        copy.is_some_and(|copy| check(file, &copy, rows_length) != Err(Refused(8)))
    })?;
    let (from, to) = (from.number(), to.number());
    Some(format!(
        "this is a correction of version {from}, and its case is of version {to}: casetool convert --correction --version {from} --to {to} makes its copy"
    ))
}

/// Two lines, the number with its meaning and the place, and a third where there is a hint.
impl fmt::Display for Refusal {
    fn fmt(&self, formatter: &mut fmt::Formatter<'_>) -> fmt::Result {
        writeln!(formatter, "{}: {}", self.refused, self.refused.meaning())?;
        if let Some((name, (line, column))) = &self.position {
            write!(formatter, "{name}: line {line}, column {column}: ")?;
        }
        writeln!(formatter, "{}", self.sentence())?;
        match &self.hint {
            Some(hint) => writeln!(formatter, "{hint}"),
            None => Ok(()),
        }
    }
}

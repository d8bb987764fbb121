//! The version of a text: what its line `version` says, or else the first version that has room for its unit numbers.

use attachment_h::layout::Version;

use super::amounts::Measure;
use super::line::{Line, Word, words};
use super::mistakes::Mistakes;
use crate::record::fields::NUMBER;

/// The word that the line begins with.
pub const VERSION: &str = "version";

/// What says the version of a correction's text beside the text itself.
#[derive(Clone, Copy, Debug, PartialEq, Eq)]
pub enum Told {
    /// The option `--version`.
    Option(Version),
    /// The case that it corrects.
    Case(Version),
}

impl Told {
    /// The version.
    pub fn version(self) -> Version {
        match self {
            Told::Option(version) | Told::Case(version) => version,
        }
    }

    /// That the text says another one.
    pub fn contradicted(self) -> String {
        let number = self.version().number();
        match self {
            Told::Option(_) => format!("--version says {number}"),
            Told::Case(_) => {
                format!("its case is of version {number}, and a correction has its case's version")
            }
        }
    }

    /// The numbers that version 1 has room for, where that version was told.
    pub fn room(self) -> &'static str {
        match self {
            Told::Option(_) => "expected 0 to 65,535, since --version says 1",
            Told::Case(_) => "expected 0 to 65,535, since its case is of version 1",
        }
    }
}

/// The same where the text says version 1.
pub const ROOM_AS_SAID: &str = "expected 0 to 65,535, since this text says version 1";

/// The version that a word after `version` names.
pub fn named(word: &str) -> Option<Version> {
    let mut versions = Version::ALL.into_iter();
    versions.find(|version| version.number().to_string() == word)
}

/// What a text says of its version.
#[derive(Clone, Copy, Debug, PartialEq, Eq)]
pub struct Said {
    /// What its line says, if it has one that can be read.
    pub line: Option<Version>,
    /// The first version that has room for its unit numbers.
    pub needed: Version,
}

impl Said {
    /// What is said by the first line `version` of a text that can be read, and by all of its numbers, those too that
    /// stand beside a mistake.
    pub fn by(text: &str) -> Said {
        let mut said = Said {
            line: None,
            needed: Version::One,
        };
        for line in text.split('\n') {
            let words = words(1, line);
            match words.split_first() {
                Some((first, rest)) if first.text == VERSION && said.line.is_none() => {
                    said.line = rest.first().and_then(|word| named(word.text));
                }
                Some((first, rest)) if !has_room(*first, rest) => said.needed = Version::Two,
                _ => {}
            }
        }
        said
    }

    /// The version of the text, where nothing else says it.
    pub fn version(self) -> Version {
        self.line.unwrap_or(self.needed)
    }
}

/// Whether version 1 has room for the unit number of a line, if it has one.
fn has_room<'a>(first: Word<'a>, rest: &[Word<'a>]) -> bool {
    let words: Vec<Word<'a>> = match first.text {
        "unit" => [&[first], rest].concat(),
        "reference" | "event" => rest.to_vec(),
        _ => return true,
    };
    let line = Line::of(first, &words, &mut Mistakes::default());
    let number = line.pair(NUMBER).map(|pair| pair.value.text);
    let number = number.and_then(|word| Measure::Plain.read(word).ok());
    number.is_none_or(|number| number <= i64::from(u16::MAX))
}

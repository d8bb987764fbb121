//! The mistakes of a text: the first of them, in the order of the text, and how many more there are.

use std::fmt;

use super::line::{TextError, Word};

/// How many are shown.
const SHOWN: usize = 20;

/// The mistakes of a text.
#[derive(Clone, Debug, Default, PartialEq, Eq)]
pub struct Mistakes {
    shown: Vec<TextError>,
    count: usize,
}

impl Mistakes {
    /// Adds one, wherever it stands in the text.
    pub fn add(&mut self, error: TextError) {
        self.count += 1;
        let place = |error: &TextError| (error.line, error.column);
        let after = self
            .shown
            .partition_point(|other| place(other) <= place(&error));
        if after < SHOWN {
            self.shown.insert(after, error);
            self.shown.truncate(SHOWN);
        }
    }

    /// Adds one that would not be shown.
    pub fn add_unshown(&mut self) {
        self.count += 1;
    }

    /// Whether one at this word would be among those that are shown.
    pub fn would_show(&self, word: Word<'_>) -> bool {
        let last = self.shown.get(SHOWN - 1);
        last.is_none_or(|last| (word.line, word.column) < (last.line, last.column))
    }

    /// How many there are.
    pub fn count(&self) -> usize {
        self.count
    }

    /// The first ones.
    pub fn shown(&self) -> &[TextError] {
        &self.shown
    }

    /// How many there are beside the first ones.
    pub fn more(&self) -> usize {
        self.count - self.shown.len()
    }

    /// A line for each that is shown, and one for the others.
    pub fn lines(&self) -> Vec<String> {
        let mut lines: Vec<String> = self.shown.iter().map(ToString::to_string).collect();
        match self.more() {
            0 => {}
            1 => lines.push("and one mistake more".to_string()),
            more => lines.push(format!("and {more} mistakes more")),
        }
        lines
    }
}

impl From<TextError> for Mistakes {
    fn from(error: TextError) -> Mistakes {
        let mut mistakes = Mistakes::default();
        mistakes.add(error);
        mistakes
    }
}

impl fmt::Display for Mistakes {
    fn fmt(&self, formatter: &mut fmt::Formatter<'_>) -> fmt::Result {
        formatter.write_str(&self.lines().join("\n"))
    }
}

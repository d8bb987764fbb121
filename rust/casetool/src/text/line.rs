//! Lines of the text form as words, and what is wrong in one.

use std::collections::BTreeSet;
use std::fmt;

use super::amounts::MEASURE_WORDS;
use super::mistakes::Mistakes;

/// What is wrong in a text, and where.
#[derive(Clone, Debug, PartialEq, Eq)]
pub struct TextError {
    /// The line, from 1.
    pub line: usize,
    /// The column of the word, from 1.
    pub column: usize,
    /// The word, or nothing where one is missing.
    pub word: Option<String>,
    /// What is wrong with it, or what was expected.
    pub problem: String,
}

impl fmt::Display for TextError {
    fn fmt(&self, formatter: &mut fmt::Formatter<'_>) -> fmt::Result {
        write!(formatter, "line {}, column {}", self.line, self.column)?;
        if let Some(word) = &self.word {
            write!(formatter, ", '{word}'")?;
        }
        write!(formatter, ": {}", self.problem)
    }
}

/// A word of a line.
#[derive(Clone, Copy, Debug)]
pub struct Word<'a> {
    /// Its line, from 1.
    pub line: usize,
    /// Its column in characters, from 1.
    pub column: usize,
    /// The word.
    pub text: &'a str,
}

/// The most characters of a word that a message repeats.
const SHOWN: usize = 40;

impl Word<'_> {
    /// What is wrong with this word.
    pub fn wrong(&self, problem: impl Into<String>) -> TextError {
        TextError {
            line: self.line,
            column: self.column,
            word: Some(self.shown()),
            problem: problem.into(),
        }
    }

    /// What is missing after this word.
    pub fn missing(&self, problem: impl Into<String>) -> TextError {
        TextError {
            line: self.line,
            column: self.column + self.text.chars().count(),
            word: None,
            problem: problem.into(),
        }
    }

    /// The word in a message, cut where it is long.
    pub fn shown(&self) -> String {
        let mut shown: String = self.text.escape_debug().take(SHOWN).collect();
        if self.text.chars().count() > SHOWN {
            shown.push('…');
        }
        shown
    }
}

/// The words of a line before its comment, which begins with `#`. A list of hours is one word, also with spaces in it:
/// `5, 6, 7`.
pub fn words(number: usize, line: &str) -> Vec<Word<'_>> {
    let line = line.split('#').next().unwrap_or_default();
    let mut found: Vec<Word<'_>> = Vec::new();
    let (mut column, mut seen) = (1, 0);
    for text in line.split_ascii_whitespace() {
        let at = text.as_ptr() as usize - line.as_ptr() as usize;
        column += line[seen..at].chars().count();
        seen = at;
        match found.last_mut() {
            Some(last) if continues(last.text, text) => {
                let from = last.text.as_ptr() as usize - line.as_ptr() as usize;
                last.text = &line[from..at + text.len()];
            }
            _ => found.push(Word {
                line: number,
                column,
                text,
            }),
        }
    }
    found
}

/// Whether two words are one list of hours: both of digits, commas and dashes, with a comma or a dash where they meet.
fn continues(before: &str, after: &str) -> bool {
    let sign = |letter: char| matches!(letter, ',' | '-' | '–');
    let part =
        |letter: char| letter.is_ascii_digit() || letter.is_ascii_whitespace() || sign(letter);
    (before.ends_with(sign) || after.starts_with(sign))
        && before.chars().chain(after.chars()).all(part)
}

/// A key with its value.
#[derive(Clone, Copy, Debug)]
pub struct Pair<'a> {
    /// The key.
    pub key: Word<'a>,
    /// The value.
    pub value: Word<'a>,
    /// The word of a measure after the value.
    pub measure: Option<Word<'a>>,
}

/// A line as its keys with their values.
#[derive(Clone, Debug)]
pub struct Line<'a> {
    /// The word that it begins with.
    pub first: Word<'a>,
    /// The last word.
    pub last: Word<'a>,
    /// The keys that have a value, each once.
    pub pairs: Vec<Pair<'a>>,
    /// The keys that it has, those without a value too.
    pub keys: BTreeSet<&'a str>,
}

impl<'a> Line<'a> {
    /// The keys and values of some words after a first one. A key that is there twice, or has no value, is a mistake.
    pub fn of(first: Word<'a>, words: &[Word<'a>], mistakes: &mut Mistakes) -> Line<'a> {
        let mut line = Line {
            first,
            last: words.last().copied().unwrap_or(first),
            pairs: Vec::new(),
            keys: BTreeSet::new(),
        };
        let mut words = words.iter().copied().peekable();
        while let Some(key) = words.next() {
            let is_new = line.keys.insert(key.text);
            if !is_new {
                mistakes.add(key.wrong("this key is there twice"));
            }
            let Some(value) = words.next() else {
                mistakes.add(key.missing(format!("expected a value for {}", key.shown())));
                break;
            };
            let measure = words.next_if(|word| is_measure(word.text));
            if is_new {
                line.pairs.push(Pair {
                    key,
                    value,
                    measure,
                });
            }
        }
        line
    }

    /// The pair of a key.
    pub fn pair(&self, key: &str) -> Option<&Pair<'a>> {
        self.pairs.iter().find(|pair| pair.key.text == key)
    }
}

/// Whether a word is that of a measure, in whatever letters. One in other letters is no key either, and told as a wrong
/// measure.
fn is_measure(word: &str) -> bool {
    let words = MEASURE_WORDS.iter().chain(&["minute", "min"]);
    words
        .into_iter()
        .any(|known| known.eq_ignore_ascii_case(word))
}

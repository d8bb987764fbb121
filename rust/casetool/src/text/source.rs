//! Where the records of a case stand in the text that they came from.

use attachment_h::layout::{CELL_BYTES, EVENT_HEAD_BYTES, Section};

use super::line::Word;
use super::values::Values;

/// A record of a text: its bytes, and the words that they came from.
pub struct Record<'a> {
    /// The word that its line begins with.
    pub first: Word<'a>,
    /// The bytes.
    pub bytes: Vec<u8>,
    /// The offset of each field that the text has, with its value.
    pub words: Vec<(usize, Word<'a>)>,
}

impl<'a> Record<'a> {
    /// Puts the cell of an hour into an event.
    pub fn put_cell(&mut self, hour: usize, cell: &Values<'a>) {
        let at = EVENT_HEAD_BYTES + CELL_BYTES * hour;
        self.bytes[at..at + CELL_BYTES].copy_from_slice(&cell.bytes);
        let words = cell.words.iter().map(|(field, word)| (at + field, *word));
        self.words.extend(words);
    }
}

/// A line and a column, from 1.
pub type Position = (usize, usize);

/// Where the records of each section stand in a text, in the order of the file.
#[derive(Clone, Debug, Default, PartialEq, Eq)]
pub struct Positions([Vec<OfRecord>; 4]);

#[derive(Clone, Debug, PartialEq, Eq)]
struct OfRecord {
    first: Position,
    fields: Vec<(usize, Position)>,
}

impl Positions {
    /// Those of the records of a text.
    pub fn of(sections: &[Vec<Record<'_>>; 4]) -> Positions {
        let position = |word: &Word<'_>| (word.line, word.column);
        let record = |record: &Record<'_>| OfRecord {
            first: position(&record.first),
            fields: record
                .words
                .iter()
                .map(|(at, word)| (*at, position(word)))
                .collect(),
        };
        Positions(std::array::from_fn(|section| {
            sections[section].iter().map(record).collect()
        }))
    }

    /// Where the field at an offset of a record stands: its value, or of a field that was left out the beginning of
    /// its record.
    pub fn find(&self, section: Section, record: usize, at: usize) -> Option<Position> {
        let record = self.0[section as usize].get(record)?;
        let field = record.fields.iter().find(|(field, _)| *field == at);
        Some(field.map_or(record.first, |(_, position)| *position))
    }
}

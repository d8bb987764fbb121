//! A field of a record: where it stands, what docs/FORMAT.md calls it, how it stands in text, and its
//! limits.

use crate::text::amounts::Measure;
use crate::text::calendar;
use crate::text::hours;
use crate::text::near;
use crate::text::words::Names;

/// How a field stands in text.
#[derive(Clone, Copy, Debug, PartialEq, Eq)]
pub enum Form {
    /// An amount, in the file unsigned.
    Amount(Measure),
    /// An amount, in the file signed.
    Signed(Measure),
    /// A word for each number that has one; other numbers as they are.
    Name(Names),
    /// A mark, 1 or 0; a text may have yes or no for it.
    Mark,
    /// A mask of hours.
    Hours,
    /// A day number; a text may have a date for it.
    Day,
}

impl Form {
    /// The value of the file in the text form.
    pub fn text(self, value: i64) -> String {
        match self {
            Form::Amount(measure) | Form::Signed(measure) => measure.text(value),
            Form::Name(names) => match names.word(value) {
                Some(word) => word.to_string(),
                None => value.to_string(),
            },
            Form::Hours => hours::text(value as u32),
            Form::Mark | Form::Day => value.to_string(),
        }
    }

    /// The value of the file for people.
    pub fn spoken(self, value: i64) -> String {
        match self {
            Form::Name(names) if names.word(value).is_some() => self.text(value),
            Form::Hours => hours::spoken(value as u32),
            form => form.measure().spoken(value),
        }
    }

    /// What an amount is counted in; other forms are plain numbers.
    pub fn measure(self) -> Measure {
        match self {
            Form::Amount(measure) | Form::Signed(measure) => measure,
            Form::Name(_) | Form::Mark | Form::Hours | Form::Day => Measure::Plain,
        }
    }

    /// The word that may stand after the value.
    pub fn measure_word(self) -> Option<&'static str> {
        self.measure().word()
    }
}

/// The values that the limits allow in a field.
#[derive(Clone, Copy, Debug, PartialEq, Eq)]
pub enum Limit {
    /// Whatever its bytes can hold.
    Any,
    /// From the first to the second.
    Between(i64, i64),
    /// The one or the other.
    Either(i64, i64),
    /// Bits 24 to 31 are 0.
    Mask,
    /// What its bytes can hold here; a limit of its own, L13, holds it to the unit's capability.
    Capability,
    /// Whatever its bytes can hold, which is less than another version has room for: by these words.
    Room(&'static str),
}

impl Limit {
    /// Whether a value is allowed.
    pub fn allows(self, value: i64) -> bool {
        match self {
            Limit::Any | Limit::Capability | Limit::Room(_) => true,
            Limit::Between(low, high) => (low..=high).contains(&value),
            Limit::Either(one, other) => value == one || value == other,
            Limit::Mask => value >> 24 == 0,
        }
    }

    /// The values that it allows, each by these words.
    pub fn words(self, words: impl Fn(i64) -> String) -> String {
        match self {
            Limit::Any => "any value".to_string(),
            Limit::Between(low, high) if low == high => format!("expected {}", words(low)),
            Limit::Between(0, 1) => format!("expected {} or {}", words(0), words(1)),
            Limit::Between(low, high) => format!("expected {} to {}", words(low), words(high)),
            Limit::Either(one, other) => format!("expected {} or {}", words(one), words(other)),
            Limit::Mask => "bits 24 to 31 of the mask have to be 0".to_string(),
            Limit::Capability => "expected at most the capability of its unit".to_string(),
            Limit::Room(words) => words.to_string(),
        }
    }
}

/// A field of a record.
#[derive(Clone, Copy, Debug, PartialEq, Eq)]
pub struct Field {
    /// Its name in docs/FORMAT.md.
    pub name: &'static str,
    /// Its key in the text form.
    pub key: &'static str,
    /// Its offset in the record or the hour cell.
    pub at: usize,
    /// Its length in bytes.
    pub bytes: usize,
    /// How it stands in text.
    pub form: Form,
    /// Whether a text has to have it, and `show` writes it always; other fields are left out where
    /// they are 0.
    pub needed: bool,
    /// Whether its day says it: a text may leave it out, and `show` writes it always.
    pub of_day: bool,
    /// The values it may have.
    pub limit: Limit,
}

impl Field {
    pub(crate) const fn new(
        (name, key): (&'static str, &'static str),
        (at, bytes): (usize, usize),
        form: Form,
    ) -> Field {
        Field {
            name,
            key,
            at,
            bytes,
            form,
            needed: false,
            of_day: false,
            limit: Limit::Any,
        }
    }

    pub(crate) const fn spare(key: &'static str, at: usize) -> Field {
        Field::new((key, key), (at, 1), Form::Amount(Measure::Plain)).within(0, 0)
    }

    pub(crate) const fn needed(self) -> Field {
        self.needed_where(true)
    }

    pub(crate) const fn needed_where(self, needed: bool) -> Field {
        Field { needed, ..self }
    }

    pub(crate) const fn of_day(self) -> Field {
        Field {
            of_day: true,
            ..self
        }
    }

    pub(crate) const fn within(self, low: i64, high: i64) -> Field {
        self.limited(Limit::Between(low, high))
    }

    pub(crate) const fn limited(self, limit: Limit) -> Field {
        Field { limit, ..self }
    }

    /// Its value in a record or an hour cell.
    pub fn value(&self, record: &[u8]) -> i64 {
        let mut word = [0; 4];
        word[..self.bytes].copy_from_slice(&record[self.at..self.at + self.bytes]);
        match self.form {
            Form::Signed(_) => i64::from(i32::from_le_bytes(word)),
            _ => i64::from(u32::from_le_bytes(word)),
        }
    }

    /// Writes a value that its bytes can hold.
    pub fn put(&self, record: &mut [u8], value: i64) {
        let word = value.to_le_bytes();
        record[self.at..self.at + self.bytes].copy_from_slice(&word[..self.bytes]);
    }

    /// Reads its value from text, without the word of its measure: what its bytes can hold, or what was expected.
    pub fn read(&self, word: &str) -> Result<i64, String> {
        let value = self.number(word)?;
        let (low, high) = self.range();
        match value {
            value if value < low => Err(format!("too small: {}", self.allowed())),
            value if value > high => Err(format!("too large: {}", self.allowed())),
            value => Ok(value),
        }
    }

    /// Reads its value from text, whether its bytes have room for it or not.
    pub fn number(&self, word: &str) -> Result<i64, String> {
        match self.form {
            Form::Amount(measure) | Form::Signed(measure) => measure.read(word),
            Form::Name(names) => match names.number(word) {
                Some(number) => Ok(number),
                None => Measure::Plain.read(word).map_err(|_| {
                    let meant = near::meant(word, names.words());
                    meant.map_or_else(|| self.allowed(), near::question)
                }),
            },
            Form::Mark => match word.to_ascii_lowercase().as_str() {
                "yes" => Ok(1),
                "no" => Ok(0),
                _ => Measure::Plain
                    .read(word)
                    .map_err(|_| "expected 0 or 1, or no or yes".to_string()),
            },
            Form::Hours => hours::read_mask(word).map(i64::from),
            Form::Day => calendar::day_of(word).map_or_else(
                || {
                    Measure::Plain.read(word).map_err(|_| {
                        "expected a day number, from 0 on 1 January 2000, or a date such as 2021-11-26"
                            .to_string()
                    })
                },
                |day| Ok(i64::from(day)),
            ),
        }
    }

    /// The number of the word that this one is near to.
    pub fn near_number(&self, word: &str) -> Option<i64> {
        match self.form {
            Form::Name(names) => names.number(near::meant(word, names.words())?),
            _ => None,
        }
    }

    /// What the limits allow, for a text.
    pub fn allowed(&self) -> String {
        let allowed = match self.limit {
            Limit::Any => {
                let (low, high) = self.range();
                Limit::Between(low, high)
            }
            limit => limit,
        };
        let numbers = allowed.words(|value| self.form.measure().spoken(value));
        match self.form {
            Form::Name(names) => {
                let words = names.words().iter().copied();
                let words: Vec<&str> = words
                    .filter(|word| {
                        names
                            .number(word)
                            .is_some_and(|number| allowed.allows(number))
                    })
                    .collect();
                let number = numbers.trim_start_matches("expected ");
                format!("expected {}, or its number, {number}", words.join(", "))
            }
            _ => numbers,
        }
    }

    /// The least and the greatest value that its bytes can hold.
    fn range(&self) -> (i64, i64) {
        match self.form {
            Form::Signed(_) => (i64::from(i32::MIN), i64::from(i32::MAX)),
            _ => (0, (1 << (8 * self.bytes)) - 1),
        }
    }
}

//! The values of a line by the fields of its record: every mistake of the line is added.

use super::amounts::MEASURE_WORDS;
use super::line::{Line, Pair, TextError, Word};
use super::mistakes::Mistakes;
use super::{near, period};
use crate::record::field::{Field, Form};
use crate::record::fields::{DAY, NUMBER, OLD_NUMBER};

/// The fields of a record, or of the cells of some hours, with the words that they came from.
pub struct Values<'a> {
    /// The bytes, 0 in the fields that are left out, but for one that the day says.
    pub bytes: Vec<u8>,
    /// The offset of each field that is there, with its value.
    pub words: Vec<(usize, Word<'a>)>,
}

/// What is made of keys that the fields do not have.
#[derive(Clone, Copy, PartialEq, Eq)]
pub enum Unknown {
    /// Each is a mistake.
    Wrong,
    /// They belong to fields that are not known yet; one that is near to a field is a mistake all the same.
    Left,
}

/// Reads a line by these fields. Nothing where it has a mistake.
pub fn values<'a>(
    line: &Line<'a>,
    fields: &[Field],
    unknown: Unknown,
    mistakes: &mut Mistakes,
) -> Option<Values<'a>> {
    let before = mistakes.count();
    let length = fields.iter().map(|field| field.at + field.bytes).max();
    let mut found = Values {
        bytes: vec![0; length.unwrap_or(0)],
        words: Vec::new(),
    };
    let mut asked_about = Vec::new();
    for pair in &line.pairs {
        let Some(field) = fields.iter().find(|field| field.key == pair.key.text) else {
            asked_about.extend(unknown_key(line, pair.key, fields, unknown, mistakes));
            continue;
        };
        match value(pair, field) {
            Ok(value) => field.put(&mut found.bytes, value),
            Err(error) => mistakes.add(error),
        }
        found.words.push((field.at, pair.value));
    }
    let is_there = |key| line.keys.contains(key) || asked_about.contains(&key);
    let left_out = fields.iter().filter(|field| !is_there(field.key));
    let (of_day, others): (Vec<&Field>, Vec<&Field>) = left_out.partition(|field| field.of_day);
    needed(line, &others, mistakes);
    for field in of_day {
        match by_day(line) {
            Some(Ok(value)) => field.put(&mut found.bytes, value),
            Some(Err(error)) => mistakes.add(error),
            None => {}
        }
    }
    (mistakes.count() == before).then_some(found)
}

/// Adds that a line lacks the keys of fields that are needed.
fn needed(line: &Line<'_>, left_out: &[&Field], mistakes: &mut Mistakes) {
    let needed = left_out.iter().filter(|field| field.needed);
    let expected = match needed.map(|field| field.key).collect::<Vec<_>>()[..] {
        [] => return,
        [key] => format!("expected the key {key}"),
        ref keys => format!("expected the keys {}", keys.join(", ")),
    };
    mistakes.add(line.last.missing(expected));
}

/// What the day of a line says that the line leaves out, its period; nothing where the day is missing or wrong, which is
/// told by itself.
fn by_day(line: &Line<'_>) -> Option<Result<i64, TextError>> {
    let pair = line.pair(DAY.key)?;
    let day = u32::try_from(value(pair, &DAY).ok()?).ok()?;
    let period = period::of(day).map(i64::from);
    Some(period.map_err(|problem| pair.value.wrong(problem)))
}

/// The value of a field that says how others are read: nothing where it is missing or wrong, which is told with the
/// other values. What is near to its key or its words is taken for them here, so that the mistakes after it are told
/// too; it is a mistake itself, and nothing is written.
pub fn early_value(line: &Line<'_>, field: &Field) -> Option<u8> {
    let near_key = |pair: &&Pair<'_>| near::meant(pair.key.text, &[field.key]).is_some();
    let pair = line
        .pair(field.key)
        .or_else(|| line.pairs.iter().take(MOST_KEYS).find(near_key));
    match pair {
        Some(pair) => {
            let read = value(pair, field).ok();
            u8::try_from(read.or_else(|| field.near_number(pair.value.text))?).ok()
        }
        None => (!field.needed && !line.keys.contains(field.key)).then_some(0),
    }
}

/// The keys of a line that are looked at for a near miss: more than any record has.
const MOST_KEYS: usize = 20;

/// That a record of version 1 has the key of a field that version 2 alone has.
const NO_OLD_NUMBER: &str =
    "version 1 has no such field; a text of version 2 begins with the line version 2";

/// Adds that a line has a key which the fields do not have; the key that it is asked about, if it is near to one.
fn unknown_key(
    line: &Line<'_>,
    key: Word<'_>,
    fields: &[Field],
    unknown: Unknown,
    mistakes: &mut Mistakes,
) -> Option<&'static str> {
    if !mistakes.would_show(key) {
        // A line may have very many: no name is looked for that nobody sees.
        if unknown == Unknown::Wrong {
            mistakes.add_unshown();
        }
        return None;
    }
    let known = keys(fields);
    let lacking: Vec<&str> = known
        .iter()
        .copied()
        .filter(|key| !line.keys.contains(key))
        .collect();
    let meant = near::meant(key.text, &lacking);
    match (meant, unknown) {
        _ if key.text == OLD_NUMBER && known.contains(&NUMBER) => {
            mistakes.add(key.wrong(NO_OLD_NUMBER));
        }
        (Some(meant), _) => mistakes.add(key.wrong(near::question(meant))),
        (None, Unknown::Wrong) => {
            let expected = format!("unknown key; expected {}", known.join(", "));
            mistakes.add(key.wrong(expected));
        }
        (None, Unknown::Left) => {}
    }
    meant
}

fn value(pair: &Pair<'_>, field: &Field) -> Result<i64, TextError> {
    field
        .read(without_measure(pair, field)?)
        .map_err(|problem| pair.value.wrong(problem))
}

/// Reads a value that stands in no line, whether its field has room for it or not; or what was expected.
pub fn alone(text: &str, field: &Field) -> Result<i64, String> {
    let word = |text| Word {
        line: 1,
        column: 1,
        text,
    };
    let (value, measure) = match field.form {
        Form::Amount(_) | Form::Signed(_) => match text.trim().split_once(char::is_whitespace) {
            Some((value, measure)) => (value, Some(word(measure.trim_start()))),
            None => (text.trim(), None),
        },
        _ => (text, None),
    };
    let pair = Pair {
        key: word(field.key),
        value: word(value),
        measure,
    };
    let number = without_measure(&pair, field).map_err(|error| error.problem)?;
    field.number(number)
}

/// What a pair has without the word of its measure, which may stand after it, or be a part of it: `500 MW`, `500MW`.
fn without_measure<'a>(pair: &Pair<'a>, field: &Field) -> Result<&'a str, TextError> {
    let (number, joined) = with_measure(pair.value);
    if let (Some(_), Some(again)) = (joined, pair.measure) {
        return Err(again.wrong("the value has this word already"));
    }
    if let Some(measure) = joined.or(pair.measure)
        && field.form.measure_word() != Some(measure.text)
    {
        let expected = match field.form.measure_word() {
            Some(word) => format!("{} is in {word}", field.key),
            None => format!("{} has no such word after it", field.key),
        };
        return Err(measure.wrong(expected));
    }
    Ok(number)
}

/// A value that ends in the word of a measure, after a digit, as its number and that word.
fn with_measure(value: Word<'_>) -> (&str, Option<Word<'_>>) {
    let alone = (value.text, None);
    let Some(last) = value.text.rfind(|letter: char| letter.is_ascii_digit()) else {
        return alone;
    };
    let (number, text) = value.text.split_at(last + 1);
    if !MEASURE_WORDS.contains(&text) {
        return alone;
    }
    let column = value.column + number.chars().count();
    (
        number,
        Some(Word {
            column,
            text,
            ..value
        }),
    )
}

/// The keys of fields, without the bytes that are 0 in a good case.
fn keys(fields: &[Field]) -> Vec<&'static str> {
    fields
        .iter()
        .map(|field| field.key)
        .filter(|key| !key.starts_with("spare-") && *key != OLD_NUMBER)
        .collect()
}

//! JSON as it is printed: integers as integers, strings escaped, an object on lines of its own.

use std::fmt;

use crate::record::event::Event;
use crate::text::calendar;

/// A value.
#[derive(Clone, Debug, PartialEq, Eq)]
pub enum Json {
    /// Nothing.
    Null,
    /// True or false.
    Bool(bool),
    /// An integer.
    Integer(i128),
    /// A string.
    Text(String),
    /// A list.
    List(Vec<Json>),
    /// Names with their values, in this order.
    Object(Vec<(&'static str, Json)>),
}

macro_rules! from_integers {
    ($($integer:ty),*) => {
        $(impl From<$integer> for Json {
            fn from(value: $integer) -> Json {
                Json::Integer(value as i128)
            }
        })*
    };
}

from_integers!(u8, u16, u32, u64, usize, i32, i64);

impl From<bool> for Json {
    fn from(value: bool) -> Json {
        Json::Bool(value)
    }
}

impl From<String> for Json {
    fn from(value: String) -> Json {
        Json::Text(value)
    }
}

impl From<&str> for Json {
    fn from(value: &str) -> Json {
        Json::Text(value.to_string())
    }
}

impl<T: Into<Json>> From<Option<T>> for Json {
    fn from(value: Option<T>) -> Json {
        value.map_or(Json::Null, Into::into)
    }
}

impl<T: Into<Json>> FromIterator<T> for Json {
    fn from_iter<I: IntoIterator<Item = T>>(values: I) -> Json {
        Json::List(values.into_iter().map(Into::into).collect())
    }
}

/// What an event is known by, for an object.
pub fn event_fields(event: &Event<'_>) -> Vec<(&'static str, Json)> {
    vec![
        ("day", event.day.into()),
        ("date", calendar::numeric_date(event.day).into()),
        ("kind", event.kind_word().into()),
        ("market", event.market_word().into()),
        ("unit", event.unit.into()),
        ("component", event.component_word().into()),
    ]
}

impl Json {
    fn write(&self, formatter: &mut fmt::Formatter<'_>, depth: usize) -> fmt::Result {
        match self {
            Json::Null => formatter.write_str("null"),
            Json::Bool(value) => write!(formatter, "{value}"),
            Json::Integer(value) => write!(formatter, "{value}"),
            Json::Text(text) => write_text(formatter, text),
            Json::List(values) => {
                // A list of objects is broken into lines, one of plain values is not.
                let lines = values.iter().any(|value| matches!(value, Json::Object(_)));
                let parts = values.iter().map(|value| ("", value));
                write_parts(formatter, ['[', ']'], lines.then_some(depth), parts)
            }
            Json::Object(values) => {
                let parts = values.iter().map(|(name, value)| (*name, value));
                write_parts(formatter, ['{', '}'], Some(depth), parts)
            }
        }
    }
}

/// Values between two signs, each after its name where it has one, on lines of their own where a depth is given.
fn write_parts<'j>(
    formatter: &mut fmt::Formatter<'_>,
    [open, close]: [char; 2],
    depth: Option<usize>,
    parts: impl ExactSizeIterator<Item = (&'static str, &'j Json)>,
) -> fmt::Result {
    let depth = depth.filter(|_| parts.len() > 0);
    let line = |formatter: &mut fmt::Formatter<'_>, depth: usize| {
        write!(formatter, "\n{:width$}", "", width = 2 * depth)
    };
    write!(formatter, "{open}")?;
    for (place, (name, value)) in parts.enumerate() {
        match (place, depth) {
            (0, _) => {}
            (_, Some(_)) => formatter.write_str(",")?,
            (_, None) => formatter.write_str(", ")?,
        }
        if let Some(depth) = depth {
            line(formatter, depth + 1)?;
        }
        if !name.is_empty() {
            write_text(formatter, name)?;
            formatter.write_str(": ")?;
        }
        value.write(formatter, depth.map_or(0, |depth| depth + 1))?;
    }
    if let Some(depth) = depth {
        line(formatter, depth)?;
    }
    write!(formatter, "{close}")
}

fn write_text(formatter: &mut fmt::Formatter<'_>, text: &str) -> fmt::Result {
    formatter.write_str("\"")?;
    for letter in text.chars() {
        match letter {
            '"' => formatter.write_str("\\\"")?,
            '\\' => formatter.write_str("\\\\")?,
            '\n' => formatter.write_str("\\n")?,
            '\r' => formatter.write_str("\\r")?,
            '\t' => formatter.write_str("\\t")?,
            '\0'..'\u{20}' => write!(formatter, "\\u{:04x}", u32::from(letter))?,
            letter => write!(formatter, "{letter}")?,
        }
    }
    formatter.write_str("\"")
}

/// The value, and the end of its last line.
impl fmt::Display for Json {
    fn fmt(&self, formatter: &mut fmt::Formatter<'_>) -> fmt::Result {
        self.write(formatter, 0)?;
        formatter.write_str("\n")
    }
}

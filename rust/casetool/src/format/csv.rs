//! A table as CSV.

use attachment_h::layout::HOURS;

use super::json::Json;

/// The columns of some fields: their names and what stands in a line. A list under one of these names has a column for each
/// hour; the values of another stand in one, with spaces between them.
pub fn columns(fields: &[(&'static str, Json)], by_hour: &[&str]) -> Vec<(String, String)> {
    let mut found = Vec::new();
    for (name, value) in fields {
        if by_hour.contains(name) {
            found.extend((0..HOURS).map(|hour| (format!("{name}_{hour}"), in_hour(value, hour))));
        } else {
            found.push((name.to_string(), plain(value)));
        }
    }
    found
}

/// What a list has in an hour; nothing where there is no list.
fn in_hour(value: &Json, hour: usize) -> String {
    match value {
        Json::List(values) => values.get(hour).map_or(String::new(), plain),
        _ => String::new(),
    }
}

/// A value without the signs of JSON.
fn plain(value: &Json) -> String {
    match value {
        Json::Null => String::new(),
        Json::Text(text) => text.clone(),
        Json::List(values) => values.iter().map(plain).collect::<Vec<_>>().join(" "),
        other => other.to_string().trim_end().to_string(),
    }
}

/// A line: a value with a comma, a quotation mark or a line's end in it stands in quotation marks.
pub fn line(values: impl Iterator<Item = String>) -> String {
    let values: Vec<String> = values
        .map(|value| match value.contains([',', '"', '\n', '\r']) {
            true => format!("\"{}\"", value.replace('"', "\"\"")),
            false => value,
        })
        .collect();
    format!("{}\n", values.join(","))
}

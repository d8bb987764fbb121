//! The answer to a version 2 copy: that of version 1 but for what names the version.

use casetool::text::amounts::bytes;

use super::Ran;
use super::copies::{Copied, of_case, of_correction};

/// What an answer tells of its version, or of the other one: the answer to its copy is another.
const OF_A_VERSION: [&str; 4] = ["of version", "says version", "--version", ", in version 2"];

/// That the version 2 copy of what casetool was given gets this answer; whether there is such a copy.
pub fn answered_alike(arguments: &[&str], input: &[u8], ran: &Ran) -> bool {
    let of_a_version = |text: &str| OF_A_VERSION.iter().any(|words| text.contains(words));
    let checks = arguments.first() == Some(&"check");
    if of_a_version(&ran.errors) || checks && of_a_version(ran.text()) {
        return false;
    }
    let Some(copied) = Copied::of(arguments, input) else {
        return false;
    };
    let expected = expected(arguments, &copied, ran);
    let ran = copied.run();
    assert!(
        ran == expected || has_its_number_last(&ran, &expected),
        "{arguments:?} in version 2:\n{}\nexpected:\n{}",
        shown(&ran),
        shown(&expected)
    );
    true
}

/// The answer to the copy, from that of version 1.
fn expected(arguments: &[&str], copied: &Copied, ran: &Ran) -> Ran {
    let (source, moved) = (&copied.source, copied.moved);
    let further = |line: &str| match moved && line.contains(&format!("{source}: line ")) {
        true => one_line_further(line),
        false => line.to_string(),
    };
    let in_words = |text: &str| {
        let lines = text.split_inclusive('\n').map(further).collect::<String>();
        with_length_of_copy(copied, &lines)
    };
    let output = match arguments[0] {
        "write" if ran.output.is_empty() => Vec::new(),
        "write" if copied.is_correction => of_correction(&ran.output).expect("a correction"),
        "write" => of_case(&ran.output).expect("a case of version 1"),
        "show" => text_of_copy(ran.text()).into(),
        "check" if arguments.contains(&"json") => {
            let text = with_length_of_copy(copied, &in_json(ran.text()));
            match moved && text.contains(&format!("\"source\": \"{source}\"")) {
                true => one_line_further(&text).into(),
                false => text.into(),
            }
        }
        "check" => in_words(ran.text()).into(),
        _ => ran.output.clone(),
    };
    Ran {
        status: ran.status,
        output,
        errors: in_words(&ran.errors),
    }
}

/// The text of the copy of what has this text in version 1.
pub fn text_of_copy(text: &str) -> String {
    text.replacen("version 1\n", "version 2\n", 1)
}

/// An answer with the length of the copy of a correction that has too many records.
fn with_length_of_copy(copied: &Copied, text: &str) -> String {
    let copy = copied.correction_bytes;
    match copy > 12 * 256 {
        true => text.replace(&bytes(copy / 12 * 8), &bytes(copy)),
        false => text.to_string(),
    }
}

/// A check as JSON with the other version, and with the place of a unit's number in that version.
fn in_json(text: &str) -> String {
    let text = text.replace("\"version\": 1,", "\"version\": 2,");
    for (part, from, to) in [
        ("units", 0, 24),
        ("references", 0, 8),
        ("correction", 0, 8),
        ("events", 2, 312),
    ] {
        let is_record = !text.contains("\"the correction: ");
        if is_record && text.contains(&format!("\"part\": \"{part}\"")) {
            let offset = |at: usize| format!("\"offset\": {at}\n");
            return text.replace(&offset(from), &offset(to));
        }
    }
    text
}

/// A text with every number of a line one higher.
fn one_line_further(text: &str) -> String {
    let mut found = String::new();
    let mut rest = text;
    while let Some(at) = rest.find("line") {
        let after = &rest[at + "line".len()..];
        let digits = after.trim_start_matches([' ', '"', ':']);
        found += &rest[..rest.len() - digits.len()];
        let end = digits.find(|letter: char| !letter.is_ascii_digit());
        let (number, after) = digits.split_at(end.unwrap_or(digits.len()));
        if let Ok(number) = number.parse::<usize>() {
            found += &(number + 1).to_string();
        }
        rest = after;
    }
    found + rest
}

/// Whether a refused record has more wrong than its unit's number, which is its first field in version 1 and its last in
/// version 2: of one record the first is told.
fn has_its_number_last(ran: &Ran, expected: &Ran) -> bool {
    let (ran, expected) = (shown(ran), shown(expected));
    let (Some(other), Some(number)) = (Told::by(&ran), Told::by(&expected)) else {
        return false;
    };
    let is_number = |field: &str| field.starts_with("unit is ") || field.starts_with("unit number");
    is_number(number.field)
        && !is_number(other.field)
        && (other.record, other.refused) == (number.record, number.refused)
}

/// What a refusal tells of a unit, a reference or a record of a correction.
struct Told<'a> {
    /// The lines before, with the number.
    refused: Vec<&'a str>,
    record: &'a str,
    field: &'a str,
}

impl Told<'_> {
    fn by(said: &str) -> Option<Told<'_>> {
        let parts = [
            "units, record ",
            "references, record ",
            "correction, record ",
        ];
        let at = parts.into_iter().find_map(|part| said.find(part))?;
        let (record, field) = said[at..].split_once("): ")?;
        let refused = said[..at].lines();
        Some(Told {
            refused: refused.take(said[..at].matches('\n').count()).collect(),
            record,
            field,
        })
    }
}

/// What was answered, for people.
fn shown(ran: &Ran) -> String {
    let output = String::from_utf8_lossy(&ran.output);
    format!("{}\n{output}{}", ran.status, ran.errors)
}

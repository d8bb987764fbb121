//! What `check` answers, in words and as JSON: a case is accepted or refused, or its text has mistakes.

use attachment_h::layout::{Section, Version};

use super::json::Json;
use super::notes::Correction;
use crate::place::refusal::Refusal;
use crate::place::{Part, Place};
use crate::text::mistakes::Mistakes;
use crate::text::words;

/// That a case of so many events is accepted.
pub fn accepted(events: usize) -> String {
    format!("accepted, {}\n", words::count(Section::Events, events))
}

/// The same as JSON, with the version of the case and the correction that it was checked with.
pub fn accepted_json(
    version: Option<Version>,
    events: usize,
    correction: Option<&Correction>,
) -> String {
    let accepted = Json::Object(vec![
        ("answer", "accepted".into()),
        ("version", version.map(Version::number).into()),
        ("correction", correction.map(Correction::json).into()),
        ("events", events.into()),
    ]);
    accepted.to_string()
}

/// A refusal as JSON, with the version of the case if it has one.
pub fn refused_json(version: Option<Version>, refusal: &Refusal) -> String {
    let position = refusal.position.as_ref();
    let refused = Json::Object(vec![
        ("answer", "refused".into()),
        ("version", version.map(Version::number).into()),
        ("number", refusal.refused.0.into()),
        ("meaning", refusal.refused.meaning().into()),
        ("place", refusal.place.as_ref().map(place_json).into()),
        ("source", position.map(|(name, _)| name.as_str()).into()),
        ("line", position.map(|(_, (line, _))| *line).into()),
        ("column", position.map(|(_, (_, column))| *column).into()),
        ("hint", refusal.hint.as_deref().into()),
    ]);
    refused.to_string()
}

fn place_json(place: &Place) -> Json {
    let part = match place.part {
        Part::Header => "header",
        Part::Section(section) => section.name(),
        Part::Correction => "correction",
        Part::Rows => "rows",
    };
    Json::Object(vec![
        ("sentence", place.sentence.as_str().into()),
        ("part", part.into()),
        ("record", place.record.into()),
        ("offset", place.at.into()),
    ])
}

/// The mistakes of a text of this name as JSON.
pub fn mistakes_json(name: &str, mistakes: &Mistakes) -> String {
    let shown = mistakes.shown().iter().map(|error| {
        Json::Object(vec![
            ("line", error.line.into()),
            ("column", error.column.into()),
            ("word", error.word.as_deref().into()),
            ("problem", error.problem.as_str().into()),
        ])
    });
    let answer = Json::Object(vec![
        ("answer", "mistakes".into()),
        ("source", name.into()),
        ("mistakes", shown.collect()),
        ("more", mistakes.more().into()),
    ]);
    answer.to_string()
}

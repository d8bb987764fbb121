//! From the bytes of a case file or of a correction to text.

use std::fmt::Write;

use attachment_h::Component;
use attachment_h::layout::{HOURS, Section, Sections, Version, cell, u32_at};

use crate::record::event::Event;
use crate::record::field::Field;
use crate::record::fields;
use crate::text::version::VERSION;
use crate::text::{calendar, order, words};

/// The text of a case.
pub fn case_text(sections: &Sections<'_>) -> String {
    let version = sections.version();
    let counts = Section::ALL.map(|section| words::count(section, sections.count(section)));
    let mut text = before_records(
        version,
        Section::ALL
            .into_iter()
            .all(|section| order::rises(version, section, sections.records(section))),
    );
    put(&mut text, format_args!("# case: {}\n", counts.join(", ")));
    for section in Section::ALL {
        if sections.count(section) > 0 {
            text.push('\n');
        }
        for (place, record) in sections.records(section).enumerate() {
            match section {
                Section::Units => unit(&mut text, sections, record),
                Section::References => reference(&mut text, version, record),
                Section::Past => past(&mut text, record),
                Section::Events => event(&mut text, sections, place, record),
            }
        }
    }
    text
}

/// The text of a correction of whole records.
pub fn correction_text(version: Version, correction: &[u8]) -> String {
    let section = Section::References;
    let records = correction.chunks_exact(section.width(version));
    let count = words::count(section, records.len());
    let mut text = before_records(version, order::rises(version, section, records.clone()));
    put(&mut text, format_args!("# correction: {count}\n"));
    if !correction.is_empty() {
        text.push('\n');
    }
    for record in records {
        reference(&mut text, version, record);
    }
    text
}

/// The line without which `write` would sort the records, where they do not rise, and the line of the version.
fn before_records(version: Version, rises: bool) -> String {
    let order = match rises {
        true => String::new(),
        false => format!("order {}\n", order::AS_WRITTEN),
    };
    format!("{order}{VERSION} {}\n", version.number())
}

/// A line with the fields of a record or of an hour cell.
fn line(text: &mut String, start: &str, fields: &[Field], record: &[u8]) {
    put_words(text, start, fields, record);
    text.push('\n');
}

fn put_words(text: &mut String, start: &str, fields: &[Field], record: &[u8]) {
    text.push_str(start);
    let mut gap = if start.is_empty() { "" } else { " " };
    for field in fields {
        let value = field.value(record);
        if field.needed || field.of_day || value != 0 {
            put(
                text,
                format_args!("{gap}{} {}", field.key, field.form.text(value)),
            );
            gap = " ";
        }
    }
}

fn put(text: &mut String, words: std::fmt::Arguments<'_>) {
    text.write_fmt(words).expect("a String takes every text");
}

/// A unit, with the keys that its events read.
fn unit(text: &mut String, sections: &Sections<'_>, record: &[u8]) {
    let version = sections.version();
    let (number, area) = (Section::Units.unit_number(version, record), record[4]);
    let read: Vec<&str> = Event::all(sections)
        .filter(|event| event.unit == number)
        .flat_map(|event| event.shape().keys_of_unit(area))
        .copied()
        .collect();
    let mut fields = fields::unit(version);
    for field in &mut fields {
        field.needed = field.needed || read.contains(&field.key);
    }
    line(text, "", &fields, record);
}

fn reference(text: &mut String, version: Version, record: &[u8]) {
    let fields = fields::reference(version, Component(record[2]));
    line(text, "reference", &fields, record);
}

fn past(text: &mut String, record: &[u8]) {
    put_words(text, "past", &fields::PAST, record);
    put(
        text,
        format_args!("  # {}\n", calendar::date(u32_at(record, 8))),
    );
}

/// An event with its number and date in a comment, then its hours.
fn event(text: &mut String, sections: &Sections<'_>, place: usize, record: &[u8]) {
    let version = sections.version();
    let event = Event::of(version, record);
    let units = sections.records(Section::Units);
    let areas: Vec<u8> = units
        .filter(|unit| Section::Units.unit_number(version, unit) == event.unit)
        .map(|unit| unit[4])
        .collect();
    let mut fields = fields::event(version, event.shape());
    for field in &mut fields {
        let asked = |&area: &u8| event.shape().area_needs(area, field);
        field.needed = field.needed || areas.iter().any(asked);
    }
    put_words(text, "event", &fields, record);
    let date = calendar::date(event.day);
    put(text, format_args!("  # event {place}, {date}\n"));
    hours(text, &event);
}

/// The hours of an event: neighbours that are alike on one line, and none where all of a cell is 0,
/// unless the event needs every hour.
fn hours(text: &mut String, event: &Event<'_>) {
    let record = event.record;
    let fields = fields::cell(event.kind, event.component);
    let mut hour = 0;
    while hour < HOURS {
        let same = cell(record, hour);
        let alike = (hour..HOURS).take_while(|&next| cell(record, next) == same);
        let last = hour + alike.count() - 1;
        if event.shape().needs_every_hour() || same.iter().any(|&byte| byte != 0) {
            let start = if hour == last {
                format!("  hour {hour}")
            } else {
                format!("  hours {hour}-{last}")
            };
            line(text, &start, &fields, same);
        }
        hour = last + 1;
    }
}

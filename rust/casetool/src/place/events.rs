//! Numbers 10 to 15: the events, and the rows that they need.

use attachment_h::layout::{
    CELL_BYTES, EVENT_HEAD_BYTES, HOURS, ROW_BYTES, Section, Sections, cell, u32_at,
};
use attachment_h::{Component, Kind};

use super::{Part, Place, broken_field, field_sentence, names, value_words};
use crate::record::event::Event;
use crate::record::fields;
use crate::text::amounts;
use crate::text::words;

/// The events of a case with their numbers.
fn events<'a>(sections: &Sections<'a>) -> impl Iterator<Item = (usize, Event<'a>)> {
    Event::all(sections).enumerate()
}

fn place(record: usize, at: usize, event: &Event<'_>, rest: &str) -> Place {
    let part = Part::Section(Section::Events);
    let name = names::of(part, event.version, record, event.record);
    Place {
        part,
        record,
        at,
        sentence: format!("{name}{rest}"),
    }
}

/// Number 10: the first event with a field out of its limits, before its hours or in one.
pub fn fields(sections: &Sections<'_>) -> Option<Place> {
    events(sections).find_map(|(number, event)| {
        let head = fields::event(event.version, event.shape());
        match broken_field(&head, event.record) {
            Some(field) => {
                let broken = format!(": {}", field_sentence(&field, event.record));
                Some(place(number, field.at, &event, &broken))
            }
            None => in_hours(number, &event),
        }
    })
}

fn in_hours(number: usize, event: &Event<'_>) -> Option<Place> {
    let fields = fields::cell(event.kind, event.component);
    (0..HOURS).find_map(|hour| {
        let cell = cell(event.record, hour);
        let field = broken_field(&fields, cell)?;
        let broken = format!(", hour {hour}: {}", field_sentence(&field, cell));
        let at = EVENT_HEAD_BYTES + CELL_BYTES * hour + field.at;
        Some(place(number, at, event, &broken))
    })
}

/// Number 11: the first event that doesn't come after the one before it.
pub fn order(sections: &Sections<'_>) -> Option<Place> {
    let mut events = events(sections);
    let (_, mut before) = events.next()?;
    for (number, event) in events {
        if before.order() >= event.order() {
            let (name, at) = event.first_difference(&before);
            let last = number - 1;
            let broken = if before.order() == event.order() {
                format!("the same as event {last}")
            } else {
                format!("{name} is out of order after event {last} ({before})")
            };
            let rule = "events have to rise strictly by day, kind, market, unit, component";
            return Some(place(number, at, &event, &format!(": {broken}; {rule}")));
        }
        before = event;
    }
    None
}

/// Number 12: the first event of an unlisted unit.
pub fn units(sections: &Sections<'_>) -> Option<Place> {
    events(sections).find_map(|(number, event)| {
        let unlisted = format!(": unit is {}; no unit of this number is listed", event.unit);
        let at = fields::number_at(Section::Events, event.version);
        sections
            .unit(event.unit)
            .is_none()
            .then(|| place(number, at, &event, &unlisted))
    })
}

/// Number 13: the first hour of kind 1 or 2 with an a above the capability.
pub fn capability(sections: &Sections<'_>) -> Option<Place> {
    events(sections)
        .filter(|(_, event)| matches!(event.kind, Kind::WITHHELD | Kind::DISPATCH))
        .find_map(|(number, event)| {
            let capability = u32_at(sections.unit(event.unit)?, 8);
            let hour = (0..HOURS).find(|&hour| u32_at(cell(event.record, hour), 0) > capability)?;
            let [a, _, _] = fields::cell(event.kind, event.component);
            let value = a.value(cell(event.record, hour));
            let above = format!(
                ", hour {hour}: {} is {}; expected at most the capability, {}",
                super::field_name(&a),
                value_words(a.form, value),
                value_words(a.form, i64::from(capability))
            );
            let at = EVENT_HEAD_BYTES + CELL_BYTES * hour;
            Some(place(number, at, &event, &above))
        })
}

/// Number 14: the first event of kind 4 without r, or without c where it is read.
pub fn references(sections: &Sections<'_>, correction: &[u8]) -> Option<Place> {
    let own = sections.bytes(Section::References);
    let version = sections.version();
    let listed = |references: &[u8], event: &Event<'_>| {
        references
            .chunks_exact(Section::References.width(version))
            .any(|record| {
                let unit = Section::References.unit_number(version, record);
                (unit, Component(record[2])) == (event.unit, event.component)
            })
    };
    events(sections)
        .filter(|(_, event)| event.kind == Kind::BIDS)
        .find_map(|(number, event)| {
            let reads_correct = matches!(event.component.0, 0 | 1 | 3) && !correction.is_empty();
            let lacking = if !listed(own, &event) {
                "the references have none"
            } else if reads_correct && !listed(correction, &event) {
                "the correction has no reference"
            } else {
                return None;
            };
            let component = words::component(event.component);
            let lacking = format!(": {lacking} for unit {}, component {component}", event.unit);
            Some(place(number, 6, &event, &lacking))
        })
}

/// Number 15: the rows buffer is too short for the events.
pub fn rows(sections: &Sections<'_>, rows_length: usize) -> Option<Place> {
    let count = sections.count(Section::Events);
    let needed = ROW_BYTES * count;
    let sentence = format!(
        "the rows buffer: its length is {}; expected at least {} for {}",
        amounts::bytes(rows_length),
        amounts::number(needed as u64),
        words::count(Section::Events, count)
    );
    (rows_length < needed).then_some(Place {
        part: Part::Rows,
        record: 0,
        at: 0,
        sentence,
    })
}

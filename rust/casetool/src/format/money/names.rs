//! What stands in the working of every kind: events and past entries by what they are known by, hours with their factors.

use attachment_h::Mask;
use attachment_h::layout::{Section, Sections, cell, u16_at, u32_at};

use crate::record::event::Event;
use crate::record::field::Field;
use crate::record::fields;
use crate::text::{calendar, hours};

/// Why the multiplier of a withheld event is 0.
pub const NO_INSTANCE: &str = "it is no instance";

/// The event of a number.
pub fn event<'a>(sections: &Sections<'a>, number: usize) -> Option<Event<'a>> {
    Event::all(sections).nth(number)
}

/// An event by its number and its unit.
pub fn short(sections: &Sections<'_>, number: usize) -> String {
    match event(sections, number) {
        Some(event) => format!("event {number}, unit {}", event.unit),
        None => format!("event {number}"),
    }
}

/// An event by its day, unit, group and period.
pub fn described(sections: &Sections<'_>, number: usize) -> String {
    let Some(event) = event(sections, number) else {
        return String::new();
    };
    let group = sections.unit(event.unit).map(|unit| u16_at(unit, 2));
    let group = group.map_or(String::new(), |group| format!(", group {group}"));
    let day = day(event.day);
    let period = u16_at(event.record, 4);
    format!("{day}, unit {}{group}, period {period}", event.unit)
}

/// A past entry by its number, day, group and period.
pub fn past_entry(sections: &Sections<'_>, number: usize) -> String {
    let record = sections.records(Section::Past).nth(number);
    let described = record.map_or(String::new(), |record| {
        let (group, period) = (u16_at(record, 0), u16_at(record, 4));
        format!("{}, group {group}, period {period}", day(u32_at(record, 8)))
    });
    format!("past entry {number}: {described}")
}

fn day(number: u32) -> String {
    format!("day {number} ({})", calendar::date(number))
}

/// The impact mark and the flagged hours, which decide together.
pub fn impact_and_flags(impact: u8, flags: Mask) -> String {
    format!("impact {impact}, flagged hours {}", hours::spoken(flags.0))
}

/// a, b and m of an hour, each with its field.
pub fn factors(event: &Event<'_>, hour: usize) -> [(Field, i64); 3] {
    let cell = cell(event.record, hour);
    fields::cell(event.kind, event.component).map(|field| (field, field.value(cell)))
}

/// A factor as people write it.
pub fn spoken((field, value): (Field, i64)) -> String {
    field.form.spoken(value)
}

/// The label of an hour's row.
pub fn hour(hour: usize) -> String {
    format!("hour {hour}")
}

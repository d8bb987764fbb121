//! What stands beside the figures of a settlement in words: why there is no multiplier or no penalty,
//! and what a correction changed. All of it is told from the rows.

use attachment_h::layout::{Section, Sections, u16_at};
use attachment_h::{Kind, Market, Mask, Multiplier, Row};

use super::json::Json;
use crate::record::event::Event;
use crate::text::amounts::{self, dollars};
use crate::text::{hours, words};

/// The correction that a case was settled with.
pub struct Correction {
    /// Where it came from.
    pub name: String,
    /// How many references it has.
    pub references: usize,
}

impl Correction {
    /// Which correction this is, or that there is none.
    pub fn line(correction: Option<&Correction>) -> String {
        match correction {
            None => "Correction: none\n".to_string(),
            Some(Correction { name, references }) => format!(
                "Correction: {name}, {}\n",
                words::count(Section::References, *references)
            ),
        }
    }

    /// The same as JSON.
    pub fn json(&self) -> Json {
        Json::Object(vec![
            ("source", self.name.as_str().into()),
            ("references", self.references.into()),
        ])
    }
}

/// A multiplier from its halves, with the instances behind it, or why there is none.
pub fn multiplier(sections: &Sections<'_>, rows: &[u8], event: &Event<'_>, row: &Row) -> String {
    let without_impact = event.record[7] == 0;
    let note = match (event.kind, row.multiplier.0) {
        (Kind::WITHHELD, 0) if row.flags == Mask(0) => {
            " (no instance: no hour is flagged)".to_string()
        }
        (Kind::WITHHELD, 0) => " (no instance: without impact)".to_string(),
        (Kind::WITHHELD, _) => format!(" (N3 {}, N2 {})", row.n3, row.n2),
        (Kind::DISPATCH, 0) if without_impact => {
            " (without impact there is no penalty)".to_string()
        }
        (Kind::DISPATCH, 0) => " (no hour is flagged)".to_string(),
        (Kind::FUEL, 0) => match bearer(sections, rows, event) {
            Some((place, unit)) => {
                format!(" (this fuel day's penalty stands on event {place}, unit {unit})")
            }
            None => String::new(),
        },
        _ => String::new(),
    };
    format!("{}{note}", amounts::halves(row.multiplier))
}

/// The event, with its unit, that bears the multiplier and the penalty of the fuel day of another: of
/// the same day, market and group.
fn bearer(sections: &Sections<'_>, rows: &[u8], of: &Event<'_>) -> Option<(usize, u32)> {
    let group = |event: &Event<'_>| sections.unit(event.unit).map(|unit| u16_at(unit, 2));
    let day = |event: &Event<'_>| (event.kind, event.day, event.market, group(event));
    Event::all(sections)
        .enumerate()
        .find(|(place, event)| {
            day(event) == day(of) && Row::of(rows, *place).multiplier != Multiplier(0)
        })
        .map(|(place, event)| (place, event.unit))
}

/// A penalty, and what is to be known of one of a fuel day.
pub fn penalty(event: &Event<'_>, row: &Row) -> String {
    let note = match (event.kind, row.multiplier.0, row.penalty.0, row.flags.0) {
        (Kind::FUEL, 1.., 0, _) => " (X, what this fuel day comes to, is below $5,000)",
        (Kind::FUEL, _, 1.., 0) if event.market == Market::DAY_AHEAD => {
            " (no hour is flagged: it comes from guarantee payments and TCC changes alone)"
        }
        (Kind::FUEL, _, 1.., 0) => " (no hour is flagged: it comes from guarantee payments alone)",
        _ => "",
    };
    format!("{}{note}", dollars(row.penalty))
}

/// Hours in which a correction put the entered bid back in force.
pub fn restored(mask: Mask) -> String {
    format!(
        "{}: by the correction, the bid entered is in force again",
        hours::named(mask.0)
    )
}

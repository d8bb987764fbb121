//! A settlement for people: a block for each plant, a paragraph for each of its events, the totals.
//!
//! Every figure is one of the rows or of the result; none is worked out here.

use attachment_h::layout::{HOURS, Section, Sections, cell, u16_at, u32_at};
use attachment_h::{Component, Kind, Mask, Row, Settled};

use crate::format::money::Money;
use crate::format::notes::{self, Correction};
use crate::record::event::Event;
use crate::record::fields;
use crate::text::amounts::dollars;
use crate::text::calendar;
use crate::text::hours;
use crate::text::words;

/// A case that was settled.
pub struct Settlement<'a> {
    /// Its sections.
    pub sections: Sections<'a>,
    /// The rows buffer.
    pub rows: &'a [u8],
    /// The correction, if there was one.
    pub correction: Option<&'a Correction>,
    /// The rows of the same case settled without the correction; of no use where there was none.
    pub rows_without: &'a [u8],
    /// The working of each event's money, where it was asked for.
    pub workings: Option<&'a [Money<'a>]>,
}

/// A figure under its name.
fn line(name: &str, figure: &str) -> String {
    format!("    {name:17}{figure}\n")
}

impl Settlement<'_> {
    /// The settlement as text: the correction, a block for each plant, the totals.
    pub fn text(&self, settled: &Settled) -> String {
        let mut text = Correction::line(self.correction);
        text.push('\n');
        for unit in self.sections.records(Section::Units) {
            text.push_str(&self.block(unit));
            text.push('\n');
        }
        let count = words::count(Section::Events, settled.rows);
        text.push_str(&format!("Totals of {count}\n"));
        text.push_str(&line("penalties", &dollars(settled.penalties)));
        text.push_str(&line("make-ups", &dollars(settled.make_ups)));
        text
    }

    /// The block of a plant, with its events in file order.
    fn block(&self, unit: &[u8]) -> String {
        let number = Section::Units.unit_number(self.sections.version(), unit);
        let group = u16_at(unit, 2);
        let mut text = format!("Unit {number}, group {group}\n");
        let mut none = true;
        for (place, event) in Event::all(&self.sections).enumerate() {
            if event.unit == number {
                text.push_str(&self.paragraph(place, &event));
                none = false;
            }
        }
        if none {
            text.push_str("  no events\n");
        }
        text
    }

    /// An event and its row.
    fn paragraph(&self, place: usize, event: &Event<'_>) -> String {
        let mut text = format!(
            "  event {place}: day {} ({}), {}, {}",
            event.day,
            calendar::date(event.day),
            words::kind(event.kind),
            words::market(event.market)
        );
        if event.kind == Kind::BIDS {
            text.push_str(&format!(", {}", words::component(event.component)));
        }
        text.push('\n');
        let row = Row::of(self.rows, place);
        text += &line("flagged hours", &hours::spoken(row.flags.0));
        text += &match event.kind {
            Kind::BIDS => self.bids(place, event, &row),
            _ => self.sanction(event, &row),
        };
        let working = self.workings.and_then(|workings| workings.get(place));
        text + &working.map_or(String::new(), |working| working.steps_text("      "))
    }

    /// The figures of an event that may bear a penalty.
    fn sanction(&self, event: &Event<'_>, row: &Row) -> String {
        let multiplier = notes::multiplier(&self.sections, self.rows, event, row);
        line("multiplier", &multiplier) + &line("penalty", &notes::penalty(event, row))
    }

    /// The figures of bids. Energy alone can have a make-up.
    fn bids(&self, place: usize, event: &Event<'_>, row: &Row) -> String {
        let mut text = line("mitigated hours", &hours::spoken(row.mitigated.0));
        if row.mitigated != Mask(0) {
            text += &line("bids in force", &bids_in_force(event.component, row));
        }
        let restored = self.restored(place, event, row);
        if restored != Mask(0) {
            text += &line("restored", &notes::restored(restored));
        }
        if event.component == Component::ENERGY {
            text += &line("make-up", &dollars(row.make_up));
        }
        text
    }
}

impl Settlement<'_> {
    /// The hours in which the entered bid is in force and would not be without the correction.
    pub fn restored(&self, place: usize, event: &Event<'_>, row: &Row) -> Mask {
        if self.correction.is_none() {
            return Mask(0);
        }
        let without = Row::of(self.rows_without, place);
        (0..HOURS)
            .filter(|&hour| {
                let entered = u32_at(cell(event.record, hour), 0).cast_signed();
                row.bids[hour] == entered && without.bids[hour] != entered
            })
            .collect()
    }
}

/// The bids in force in the mitigated hours, neighbours that are alike together.
fn bids_in_force(component: Component, row: &Row) -> String {
    let [bid, _, _] = fields::cell(Kind::BIDS, component);
    let mut runs: Vec<(u32, i32)> = Vec::new();
    for (hour, &value) in row.bids.iter().enumerate() {
        let bit = 1 << hour;
        match runs.last_mut() {
            _ if row.mitigated.0 & bit == 0 => {}
            Some((mask, same)) if *same == value && *mask & bit >> 1 != 0 => *mask |= bit,
            _ => runs.push((bit, value)),
        }
    }
    let parts: Vec<String> = runs
        .into_iter()
        .map(|(mask, value)| {
            let value = bid.form.spoken(i64::from(value));
            format!("{value} in {}", hours::named(mask))
        })
        .collect();
    parts.join(", ")
}

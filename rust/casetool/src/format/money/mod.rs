//! The working of an event's money, to be followed with a pencil: each step under the sentence of the tariff that it is.
//!
//! Every figure is the library's or a field of the case; none is multiplied, added or rounded here.

mod bids;
mod dispatch;
mod figures;
mod fuel;
mod names;
mod step;
mod withheld;

use attachment_h::layout::{Sections, u16_at};
use attachment_h::{Instances, MakeUpWorking, Mask, PenaltyWorking};

use self::step::Step;
use super::json::{Json, event_fields};
use super::rows::hours_of;
use crate::record::event::Event;
use crate::text::words;

/// An event, and the figures of its money.
#[derive(Clone, Debug)]
pub struct Money<'a> {
    /// The sections of its case, which has what the figures were made of.
    pub sections: Sections<'a>,
    /// The event's number, from 0.
    pub number: usize,
    /// The event.
    pub event: Event<'a>,
    /// The flagged hours of its row.
    pub flags: Mask,
    /// The figures of its kind.
    pub figures: Figures,
}

/// The figures of each kind.
#[derive(Clone, Debug)]
pub enum Figures {
    /// Of a withheld event: its penalty, and what its N3 and N2 counted.
    Withheld(Box<PenaltyWorking>, Instances),
    /// Of a dispatch event: its penalty.
    Dispatch(Box<PenaltyWorking>),
    /// Of a fuel event: its penalty, and the events of its party-day, itself among them, with their numbers and workings.
    Fuel(Box<PenaltyWorking>, Vec<(usize, PenaltyWorking)>),
    /// Of bids: their make-up.
    Bids(Box<MakeUpWorking>),
}

/// The working of an event's money as JSON, as an answer of its own.
pub fn json(money: &Money<'_>) -> String {
    let answer = Json::Object(vec![
        ("answer", "money".into()),
        ("working", Json::Object(money.fields())),
    ]);
    answer.to_string()
}

impl Money<'_> {
    /// The working as text.
    pub fn text(&self) -> String {
        self.event.heading(self.number) + &self.steps_text("  ")
    }

    /// The steps of the working, each line of them after these spaces.
    pub fn steps_text(&self, indent: &str) -> String {
        let steps = self.steps().into_iter().enumerate();
        let lines = steps.flat_map(|(place, step)| step.lines_under(place + 1));
        lines.map(|line| format!("{indent}{line}\n")).collect()
    }

    fn steps(&self) -> Vec<Step> {
        match &self.figures {
            Figures::Withheld(working, counted) => withheld::steps(self, working, counted),
            Figures::Dispatch(working) => dispatch::steps(self, working),
            Figures::Fuel(working, day) => fuel::steps(self, working, day),
            Figures::Bids(working) => bids::steps(self, working),
        }
    }

    /// The working for an object: what the event is known by, its steps, and the figures of its kind.
    pub fn fields(&self) -> Vec<(&'static str, Json)> {
        let steps = self.steps().into_iter().enumerate();
        let steps = steps.map(|(place, step)| step.json(place + 1)).collect();
        let mut fields = vec![("event", self.number.into())];
        fields.extend(event_fields(&self.event));
        fields.extend([
            ("group", self.group().into()),
            ("period", u16_at(self.event.record, 4).into()),
            ("flagged_hours", hours_of(self.flags)),
            ("steps", steps),
        ]);
        let figures = match &self.figures {
            Figures::Withheld(working, counted) => withheld::json(self, working, counted),
            Figures::Dispatch(working) => dispatch::json(self, working),
            Figures::Fuel(working, day) => fuel::json(self, working, day),
            Figures::Bids(working) => bids::json(self, working),
        };
        for &name in words::KINDS.words() {
            let own = self.event.kind_word() == Some(name);
            fields.push((name, own.then(|| figures.clone()).into()));
        }
        fields
    }

    /// The group of its unit.
    fn group(&self) -> Option<u16> {
        self.sections
            .unit(self.event.unit)
            .map(|unit| u16_at(unit, 2))
    }

    /// Its impact mark.
    fn impact(&self) -> u8 {
        self.event.record[7]
    }
}

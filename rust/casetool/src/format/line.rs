//! Where the line of bids runs: a table of an event's hours beside it, or one line alone.
//!
//! Lines, bids, tight and flagged hours are the library's.

use attachment_h::Component;

use super::json::{Json, event_fields};
use super::rows::{hours_of, measure_name};
use crate::record::event::Event;
use crate::record::fields::measure_of;
use crate::text::amounts::{Measure, Signed};
use crate::text::hours;
use crate::text::words;

/// What the line of one of the three times leaves out.
const SUM_OF_TIMES: [&str; 2] = [
    "The sum counts too: up to the line an hour may be flagged, where the minutes above reference of",
    "the three times of one unit, day, market and hour come to more than 360.",
];

/// The line of a component.
#[derive(Clone, Copy, Debug, PartialEq, Eq)]
pub struct Line {
    /// The component.
    pub component: Component,
    /// r.
    pub reference: u32,
    /// The last bid that passes.
    pub bid: i32,
}

impl Line {
    /// The line as text, and what it is the line of.
    pub fn text(&self, of: &str) -> String {
        let note = notes(self.component).map(|note| format!("{note}\n"));
        format!("{}\nof {of}\n{}", self.words(), note.collect::<String>())
    }

    /// The line as JSON.
    pub fn json(&self) -> String {
        let component = words::COMPONENTS.word(i64::from(self.component.0));
        let mut fields = vec![("answer", "line".into()), ("component", component.into())];
        fields.extend(about(self.component));
        for (names, value) in [
            (
                ["reference", "reference_dollars"],
                i64::from(self.reference),
            ),
            (["line", "line_dollars"], i64::from(self.bid)),
        ] {
            fields.extend(amount(names, self.component, Some(value)));
        }
        Json::Object(fields).to_string()
    }

    /// The figure, and what it is.
    fn words(&self) -> String {
        let figure = measure_of(self.component).spoken(i64::from(self.bid));
        format!("{figure}, the {} bid that passes", side(self.component))
    }
}

/// The side of the bids that pass on which the line runs.
fn side(component: Component) -> &'static str {
    match component {
        Component::MAXIMUM_PARAMETER => "lowest",
        _ => "highest",
    }
}

/// What is to be known beside the line of a component.
fn notes(component: Component) -> impl Iterator<Item = &'static str> {
    SUM_OF_TIMES
        .into_iter()
        .filter(move |_| component.is_time())
}

/// How a line is to be read, for an object.
fn about(component: Component) -> [(&'static str, Json); 3] {
    [
        ("measure", measure_name(measure_of(component)).into()),
        ("passes", side(component).into()),
        ("sum_of_times", component.is_time().into()),
    ]
}

/// An amount under its name and, where it is in cents, under its second name in dollars.
fn amount(
    [name, in_dollars]: [&'static str; 2],
    component: Component,
    value: Option<i64>,
) -> [(&'static str, Json); 2] {
    let dollars = value.and_then(|value| dollars(component, value));
    [(name, value.into()), (in_dollars, dollars.into())]
}

fn dollars(component: Component, value: impl Into<Signed>) -> Option<String> {
    let measure = Some(measure_of(component)).filter(|measure| *measure == Measure::Dollars);
    measure.map(|measure| measure.decimal(value))
}

/// An hour of an event of bids.
#[derive(Clone, Copy, Debug, PartialEq, Eq)]
pub struct Hour {
    /// The bid.
    pub bid: i32,
    /// The line that holds for it.
    pub line: i32,
    /// The hour is tight.
    pub tight: bool,
    /// The hour is flagged.
    pub flagged: bool,
}

/// An event of bids, with its hours beside their lines.
#[derive(Clone, Debug)]
pub struct Bids<'a> {
    /// The event's number, from 0.
    pub number: usize,
    /// The event.
    pub event: Event<'a>,
    /// r.
    pub reference: u32,
    /// Its 24 hours.
    pub hours: Vec<Hour>,
}

/// The events of bids of a case as text.
pub fn text(events: &[Bids<'_>]) -> String {
    if events.is_empty() {
        return "This case has no event of bids\n".to_string();
    }
    let tables: Vec<String> = events.iter().map(Bids::text).collect();
    tables.join("\n")
}

/// The events of bids of a case as JSON.
pub fn json(events: &[Bids<'_>]) -> String {
    let answer = Json::Object(vec![
        ("answer", "lines".into()),
        ("events", events.iter().map(Bids::json).collect()),
    ]);
    answer.to_string()
}

impl Bids<'_> {
    fn text(&self) -> String {
        let figure = |name: &str, figure: &str| format!("    {name:23}{figure}\n");
        let reference = measure_of(self.event.component).spoken(u64::from(self.reference));
        let mut text = self.event.heading(self.number) + &figure("reference", &reference);
        for (name, tight) in [
            ("line, tight hours", true),
            ("line, hours not tight", false),
        ] {
            if let Some(line) = self.line(tight) {
                text += &figure(name, &line.words());
            }
        }
        for note in notes(self.event.component) {
            text += &format!("    {note}\n");
        }
        text + &self.table()
    }

    /// The line of the tight hours or of the others; nothing where there are none.
    fn line(&self, tight: bool) -> Option<Line> {
        let hour = self.hours.iter().find(|hour| hour.tight == tight)?;
        Some(Line {
            component: self.event.component,
            reference: self.reference,
            bid: hour.line,
        })
    }

    /// A row for neighbouring hours that are alike.
    fn table(&self) -> String {
        let measure = measure_of(self.event.component);
        let amount = |value: i32| measure.spoken(i64::from(value));
        let mark = |mark: bool| if mark { "yes" } else { "no" }.to_string();
        let mut rows = vec![["hours", "bid", "line", "tight", "flagged"].map(str::to_string)];
        rows.extend(self.stretches().into_iter().map(|(mask, hour)| {
            [
                hours::spoken(mask),
                amount(hour.bid),
                amount(hour.line),
                mark(hour.tight),
                mark(hour.flagged),
            ]
        }));
        let width = |column: usize| rows.iter().map(|row| row[column].chars().count()).max();
        let [first, second, third] = [0, 1, 2].map(|column| width(column).unwrap_or(0));
        let lines = rows.iter().map(|[hours, bid, line, tight, flagged]| {
            format!("  {hours:first$}  {bid:>second$}  {line:>third$}  {tight:5}  {flagged}\n")
        });
        lines.collect()
    }

    /// Neighbouring hours that are alike, as a mask, and what they have in common.
    fn stretches(&self) -> Vec<(u32, Hour)> {
        let mut found: Vec<(u32, Hour)> = Vec::new();
        for (place, &hour) in self.hours.iter().enumerate() {
            match found.last_mut() {
                Some((mask, same)) if *same == hour => *mask |= 1 << place,
                _ => found.push((1 << place, hour)),
            }
        }
        found
    }

    fn json(&self) -> Json {
        let component = self.event.component;
        let line = |tight| self.line(tight).map(|line| i64::from(line.bid));
        let reference = Some(i64::from(self.reference));
        let mut fields = vec![("event", self.number.into())];
        fields.extend(event_fields(&self.event));
        fields.extend(about(component));
        for (names, value) in [
            (["reference", "reference_dollars"], reference),
            (["tight_line", "tight_line_dollars"], line(true)),
            (["other_line", "other_line_dollars"], line(false)),
        ] {
            fields.extend(amount(names, component, value));
        }
        fields.push(("tight_hours", self.hours_where(|hour| hour.tight)));
        fields.push(("flagged_hours", self.hours_where(|hour| hour.flagged)));
        fields.extend(self.hour_by_hour(["bids", "bids_dollars"], |hour| hour.bid));
        fields.extend(self.hour_by_hour(["lines", "lines_dollars"], |hour| hour.line));
        Json::Object(fields)
    }

    fn hours_where(&self, holds: impl Fn(&Hour) -> bool) -> Json {
        let hours = self.hours.iter().enumerate();
        hours_of(
            hours
                .filter(|(_, hour)| holds(hour))
                .map(|(place, _)| place)
                .collect(),
        )
    }

    /// An amount of each hour under its name and, where it is in cents, under its second name in dollars.
    fn hour_by_hour(
        &self,
        [name, in_dollars]: [&'static str; 2],
        amount: impl Fn(&Hour) -> i32,
    ) -> [(&'static str, Json); 2] {
        let amounts = || self.hours.iter().map(&amount);
        let dollars: Option<Vec<String>> = amounts()
            .map(|amount| dollars(self.event.component, i64::from(amount)))
            .collect();
        let dollars = dollars.map(Json::from_iter);
        [(name, amounts().collect()), (in_dollars, dollars.into())]
    }
}

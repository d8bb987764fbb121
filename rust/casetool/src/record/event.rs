//! What an event is known by: day, kind, market, unit and component.

use std::fmt;

use attachment_h::layout::{Section, Sections, Version, u32_at};
use attachment_h::{Component, Kind, Market};

use crate::record::fields;
use crate::record::needs::Shape;
use crate::text::calendar;
use crate::text::words;

/// An event record with the fields that events are sorted by.
#[derive(Clone, Copy, Debug)]
pub struct Event<'a> {
    /// The version of its file.
    pub version: Version,
    /// Its bytes.
    pub record: &'a [u8],
    /// The day number.
    pub day: u32,
    /// The kind.
    pub kind: Kind,
    /// The market.
    pub market: Market,
    /// The unit number.
    pub unit: u32,
    /// The component.
    pub component: Component,
}

impl<'a> Event<'a> {
    /// The event of a record.
    pub fn of(version: Version, record: &'a [u8]) -> Event<'a> {
        Event {
            version,
            record,
            day: u32_at(record, 8),
            kind: Kind(record[0]),
            market: Market(record[1]),
            unit: Section::Events.unit_number(version, record),
            component: Component(record[6]),
        }
    }

    /// The events of a case, in the order of the file.
    pub fn all(sections: &Sections<'a>) -> impl Iterator<Item = Event<'a>> + use<'a> {
        let version = sections.version();
        let records = sections.records(Section::Events);
        records.map(move |record| Event::of(version, record))
    }

    /// What says how its fields are read.
    pub fn shape(&self) -> Shape {
        Shape {
            kind: self.kind,
            market: self.market,
            component: self.component,
        }
    }

    /// The word that a text has for its kind.
    pub fn kind_word(&self) -> Option<&'static str> {
        words::KINDS.word(i64::from(self.kind.0))
    }

    /// The word that a text has for its market.
    pub fn market_word(&self) -> Option<&'static str> {
        words::MARKETS.word(i64::from(self.market.0))
    }

    /// The word that a text has for its component; bids alone have one.
    pub fn component_word(&self) -> Option<&'static str> {
        let word = words::COMPONENTS.word(i64::from(self.component.0));
        word.filter(|_| self.kind == Kind::BIDS)
    }

    /// The heading of an answer about this event, with its number.
    pub fn heading(&self, number: usize) -> String {
        let mut text = format!(
            "Event {number}: day {} ({}), {}, {}, unit {}",
            self.day,
            calendar::date(self.day),
            words::kind(self.kind),
            words::market(self.market),
            self.unit
        );
        if self.kind == Kind::BIDS {
            text += &format!(", {}", words::component(self.component));
        }
        text + "\n"
    }

    /// What events rise strictly by.
    pub fn order(&self) -> (u32, Kind, Market, u32, Component) {
        (self.day, self.kind, self.market, self.unit, self.component)
    }

    /// The first part of the order that is another than in an event, with its offset; the last
    /// part where all are the same.
    pub fn first_difference(&self, other: &Event<'_>) -> (&'static str, usize) {
        if self.day != other.day {
            ("day", 8)
        } else if self.kind != other.kind {
            ("kind", 0)
        } else if self.market != other.market {
            ("market", 1)
        } else if self.unit != other.unit {
            ("unit", fields::number_at(Section::Events, self.version))
        } else {
            ("component", 6)
        }
    }
}

impl fmt::Display for Event<'_> {
    fn fmt(&self, formatter: &mut fmt::Formatter<'_>) -> fmt::Result {
        let (kind, market) = (words::kind(self.kind), words::market(self.market));
        write!(
            formatter,
            "day {}, {kind}, {market}, unit {}",
            self.day, self.unit
        )?;
        if self.kind == Kind::BIDS || self.component != Component(0) {
            write!(formatter, ", {}", words::component(self.component))?;
        }
        Ok(())
    }
}

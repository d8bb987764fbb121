//! A case as typed records, and its bytes in either version of the case file.
//!
//! Nothing here is checked: a test may write any case, also one that is to be refused.

mod builders;
mod bytes;

pub use attachment_h::layout::{
    CELL_BYTES, EVENT_HEAD_BYTES, HEADER_BYTES, LARGEST_FILE, PAST_BYTES, ROW_BYTES, Section,
    Version, file_in, put_u16, put_u32, u16_at, u32_at,
};
use attachment_h::{Component, Kind, Market};
pub use bytes::{Input, correction_bytes, section_place, sections_of, version_of};

/// A unit record.
#[derive(Clone, Copy, Debug, Default, PartialEq, Eq)]
pub struct Unit {
    /// Unit number.
    pub unit: u32,
    /// A Market Party with its Affiliates.
    pub group: u16,
    /// 1 Constrained Area, 0 not.
    pub area: u8,
    /// Tenths of MW.
    pub capability: u32,
    /// Tenths of MW per minute.
    pub response_rate: u32,
    /// Cents.
    pub average_price: u32,
    /// Constrained Hours.
    pub constrained_hours: u16,
}

/// A reference record, of the case or of a correction.
#[derive(Clone, Copy, Debug, PartialEq, Eq)]
pub struct Reference {
    /// Unit number.
    pub unit: u32,
    /// What it is the reference of.
    pub component: Component,
    /// The reference level.
    pub value: u32,
}

/// A past entry.
#[derive(Clone, Copy, Debug, PartialEq, Eq)]
pub struct Past {
    /// Group number.
    pub group: u16,
    /// Withheld or fuel.
    pub kind: Kind,
    /// Day-Ahead or Real-Time.
    pub market: Market,
    /// Capability period number.
    pub period: u16,
    /// Day number.
    pub day: u32,
}

/// One hour of a withheld event: `a` and `b`.
#[derive(Clone, Copy, Debug, Default, PartialEq, Eq)]
pub struct WithheldHour {
    /// Tenths of MW.
    pub withheld: u32,
    /// Cents.
    pub price: i32,
}

/// One hour of a dispatch event: `a` and `b`.
#[derive(Clone, Copy, Debug, Default, PartialEq, Eq)]
pub struct DispatchHour {
    /// Tenths of MW.
    pub undelivered: u32,
    /// Cents.
    pub added_revenue: u32,
}

/// One hour of a fuel event: `a` and `b`.
#[derive(Clone, Copy, Debug, Default, PartialEq, Eq)]
pub struct FuelHour {
    /// Tenths of MWh.
    pub energy: u32,
    /// Cents.
    pub price_change: i32,
}

/// One hour of a bids event: `a`, `b` and `m`.
#[derive(Clone, Copy, Debug, Default, PartialEq, Eq)]
pub struct BidHour {
    /// In the component's own measure.
    pub bid: i32,
    /// Cents.
    pub price: i32,
    /// Tenths of MW.
    pub quantity: u32,
}

/// The fields of an event that go by its kind.
#[derive(Clone, Copy, Debug, PartialEq, Eq)]
pub enum Conduct {
    /// Kind 1.
    Withheld {
        /// The impact result.
        impact: u8,
        /// P, hours with a Shadow Price.
        shadow_price: u32,
        /// The hour cells.
        hours: [WithheldHour; 24],
    },
    /// Kind 2.
    Dispatch {
        /// The impact result.
        impact: u8,
        /// P, hours with a Shadow Price.
        shadow_price: u32,
        /// The hour cells.
        hours: [DispatchHour; 24],
    },
    /// Kind 3.
    Fuel {
        /// P, hours with inaccurate data and a failed impact test.
        inaccurate: u32,
        /// Q, change of guarantee payment in cents.
        guarantee_change: i32,
        /// R, TCC change in cents.
        tcc_change: i32,
        /// The hour cells.
        hours: [FuelHour; 24],
    },
    /// Kind 4.
    Bids {
        /// What is bid for.
        component: Component,
        /// P, hours with a Shadow Price.
        shadow_price: u32,
        /// Q, hours with impact.
        impact: u32,
        /// R.
        minimum_run_hours: u32,
        /// The hour cells.
        hours: [BidHour; 24],
    },
}

/// An event record.
#[derive(Clone, Copy, Debug, PartialEq, Eq)]
pub struct Event {
    /// Day number; 0 is 1 January 2000.
    pub day: u32,
    /// Day-Ahead or Real-Time.
    pub market: Market,
    /// Unit number.
    pub unit: u32,
    /// Capability period number.
    pub period: u16,
    /// The fields of its kind.
    pub conduct: Conduct,
}

impl Event {
    /// The kind.
    pub fn kind(&self) -> Kind {
        match self.conduct {
            Conduct::Withheld { .. } => Kind::WITHHELD,
            Conduct::Dispatch { .. } => Kind::DISPATCH,
            Conduct::Fuel { .. } => Kind::FUEL,
            Conduct::Bids { .. } => Kind::BIDS,
        }
    }

    /// The component; 0 where the kind has none.
    pub fn component(&self) -> Component {
        match self.conduct {
            Conduct::Bids { component, .. } => component,
            _ => Component(0),
        }
    }

    /// What events are sorted by: (day, kind, market, unit, component).
    pub fn order(&self) -> (u32, Kind, Market, u32, Component) {
        (
            self.day,
            self.kind(),
            self.market,
            self.unit,
            self.component(),
        )
    }
}

/// A case: the records of the four sections, in the order in which they are written.
#[derive(Clone, Debug, PartialEq, Eq)]
pub struct Case {
    /// The version in which it is written.
    pub version: Version,
    /// Unit records.
    pub units: Vec<Unit>,
    /// Reference records.
    pub references: Vec<Reference>,
    /// Past entries.
    pub past: Vec<Past>,
    /// Event records.
    pub events: Vec<Event>,
}

impl Default for Case {
    /// The version 1 case with no records.
    fn default() -> Case {
        Case {
            version: Version::One,
            units: Vec::new(),
            references: Vec::new(),
            past: Vec::new(),
            events: Vec::new(),
        }
    }
}

impl Case {
    /// The same records in that version.
    pub fn in_version(self, version: Version) -> Case {
        Case { version, ..self }
    }

    /// Sorts the events as a file must have them.
    pub fn sort_events(&mut self) {
        self.events.sort_by_key(Event::order);
    }
}

/// All 24 hours.
pub const EVERY_HOUR: u32 = 0xFF_FFFF;

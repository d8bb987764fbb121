//! The keys that a text needs beyond those of every record, since its events read them: what is left
//! out is an error and never 0. `write` asks for them, `show` writes them where they are 0 too.
//!
//! The fields of `fields` say which keys the lines of an event need; here is what they need of their
//! unit's line, what its area asks of them, and which events need every hour.

use attachment_h::{Component, Kind, Market};

use crate::record::field::Field;

/// What says how the fields of an event are read.
#[derive(Clone, Copy, Debug, PartialEq, Eq)]
pub struct Shape {
    /// The kind.
    pub kind: Kind,
    /// The market.
    pub market: Market,
    /// The component.
    pub component: Component,
}

impl Shape {
    /// The keys that its unit's line needs, in this area: the area itself decides which hours are tight.
    pub fn keys_of_unit(self, area: u8) -> &'static [&'static str] {
        match (self.kind, self.market, self.component, area) {
            (Kind::DISPATCH, ..) => &["area", "response-rate"],
            (
                Kind::BIDS,
                Market::REAL_TIME,
                Component::ENERGY | Component::MINIMUM_GENERATION,
                1,
            ) => &["area", "average-price", "constrained-hours"],
            (Kind::WITHHELD | Kind::BIDS, ..) => &["area"],
            _ => &[],
        }
    }

    /// Whether a key has to be there because of the unit's area: a Constrained Area asks which hours
    /// have a Shadow Price.
    pub fn area_needs(self, area: u8, field: &Field) -> bool {
        area == 1 && self.kind != Kind::FUEL && Kind::ALL.contains(&self.kind) && field.name == "P"
    }

    /// Whether every hour has to be there: a maximum parameter that is left out would be a bid of 0,
    /// which is flagged where its reference is above 0.
    pub fn needs_every_hour(self) -> bool {
        self.kind == Kind::BIDS && self.component == Component::MAXIMUM_PARAMETER
    }
}

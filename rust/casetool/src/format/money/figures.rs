//! Figures of a working under their names, for programs: each amount as it is counted and in dollars.

use attachment_h::{Cents, Counted, Multiplier};

use crate::format::json::Json;
use crate::text::amounts::{Measure, Signed, halves};

/// Names with their values.
pub type Fields = [(&'static str, Json); 2];

/// An amount in tenths of a cent.
pub fn tenths([name, in_dollars]: [&'static str; 2], amount: Signed) -> Fields {
    let dollars = Measure::TenthsOfACent.decimal(amount);
    [(name, amount.json()), (in_dollars, dollars.into())]
}

/// An amount in cents.
pub fn cents([name, in_dollars]: [&'static str; 2], amount: Signed) -> Fields {
    let dollars = Measure::Dollars.decimal(amount);
    [(name, amount.json()), (in_dollars, dollars.into())]
}

/// A penalty.
pub fn penalty(penalty: Cents) -> Fields {
    cents(["penalty_cents", "penalty_dollars"], penalty.0.into())
}

/// A multiplier in halves and in ones.
pub fn multiplier(multiplier: Multiplier) -> Fields {
    [
        ("multiplier_halves", multiplier.0.into()),
        ("multiplier", halves(multiplier).into()),
    ]
}

/// What a count counted beside the event itself.
pub fn counted(counted: &Counted) -> Json {
    Json::Object(vec![
        ("events", counted.events.iter().copied().collect()),
        ("past", counted.past.iter().copied().collect()),
    ])
}

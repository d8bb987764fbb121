//! The working of a bid's make-up payment: the terms of its mitigated hours, and the hours whose bid
//! a correct reference restores.

use crate::case_file::{BidHour, Case, Conduct, Unit};
use crate::rules::{self, BidConditions};
use crate::settlement::{Row, unit_of};
use crate::terms::{Component, HOURS, HourMask, Market, round_to_cents};

/// The working of a bid's make-up payment. What its component lacks is 0, and so is all of it where
/// the event is no bid.
#[derive(Clone, Copy, Debug, Default, PartialEq, Eq)]
pub struct MakeUpWorking {
    /// r.
    pub reference: u32,
    /// c, of the components that read it.
    pub correct: u32,
    /// The mask of the mitigated hours.
    pub mitigated: u32,
    /// Of these the hours whose bid is in force again as it was bid.
    pub restored: u32,
    /// Component 0: the sum of the hours' terms, in tenths of a cent, also where nothing is due.
    pub tenths: u64,
    /// The make-up payment in cents.
    pub make_up: u64,
    /// Component 0: the term of each mitigated hour, in tenths of a cent.
    pub hours: [u64; HOURS],
}

/// The working of the make-up payment of an event of the case, beside its rows.
pub fn make_up_working(case: &Case, rows: &[Row], event: usize) -> MakeUpWorking {
    let Some(bids) = Bids::of(case, rows, event) else {
        return MakeUpWorking::default();
    };
    let correct = || case.correct_references[&(case.events[event].unit, bids.component)];
    match bids.component {
        Component::Energy => bids.paid(correct()),
        Component::MinimumGeneration | Component::StartUpCost => bids.tested_again(correct()),
        _ => bids.alone(),
    }
}

/// The bids of an event, with what their tests read.
struct Bids<'a> {
    unit: &'a Unit,
    market: Market,
    component: Component,
    shadow_price: HourMask,
    hours: &'a [BidHour; HOURS],
    mitigated: HourMask,
    reference: i64,
}

impl<'a> Bids<'a> {
    fn of(case: &'a Case, rows: &[Row], event: usize) -> Option<Bids<'a>> {
        let own = &case.events[event];
        match &own.conduct {
            Conduct::Bids {
                component,
                shadow_price,
                hours,
                ..
            } => Some(Bids {
                unit: unit_of(case, event),
                market: own.market,
                component: *component,
                shadow_price: *shadow_price,
                hours,
                mitigated: rows[event].mitigated,
                reference: case.references[&(own.unit, *component)],
            }),
            _ => None,
        }
    }

    /// Without a correct reference.
    fn alone(&self) -> MakeUpWorking {
        MakeUpWorking {
            reference: self.reference as u32,
            mitigated: self.mitigated.bits(),
            ..MakeUpWorking::default()
        }
    }

    /// "m × (the lesser of a and c, less b), added over its mitigated hours, an hour in which that
    /// is below 0 counting 0"; due with c other than r.
    fn paid(&self, correct: i64) -> MakeUpWorking {
        let hours = self.mitigated.amounts(|hour| {
            let BidHour {
                bid,
                price,
                quantity,
            } = self.hours[hour];
            quantity * (bid.min(correct) - price).max(0)
        });
        let tenths: u64 = hours.iter().sum();
        let make_up = if correct == self.reference {
            0
        } else {
            round_to_cents(i128::from(tenths), 10) as u64
        };
        MakeUpWorking {
            correct: correct as u32,
            tenths,
            make_up,
            hours,
            ..self.alone()
        }
    }

    /// With c other than r a mitigated bid is "a again, where a passes the conduct test of its
    /// component with c in place of r".
    fn tested_again(&self, correct: i64) -> MakeUpWorking {
        let restored = HourMask::of_hours(|hour| {
            correct != self.reference && self.mitigated.has(hour) && self.passes(hour, correct)
        });
        MakeUpWorking {
            correct: correct as u32,
            restored: restored.bits(),
            ..self.alone()
        }
    }

    fn passes(&self, hour: usize, reference: i64) -> bool {
        let conditions = BidConditions {
            market: self.market,
            tight: self.unit.constrained_area && self.shadow_price.has(hour),
            constrained_hours: self.unit.constrained_hours,
            average_price: self.unit.average_price,
        };
        !rules::bid_fails(self.component, &conditions, reference, self.hours[hour].bid)
    }
}

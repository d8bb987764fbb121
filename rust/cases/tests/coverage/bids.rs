//! Bids: the lines of every component's test.

use cases::case::BidHour;
use cases::{Component, Market};

use crate::settled::SettledEvent;
use crate::{Reached, at_and_over};

/// The bids of an event with its r and c.
pub struct Bids<'a> {
    pub event: &'a SettledEvent<'a>,
    pub component: u8,
    pub name: String,
    pub r: i64,
    pub c: i64,
    hours: &'a [BidHour; 24],
}

impl<'a> Bids<'a> {
    pub fn of(
        event: &'a SettledEvent<'a>,
        component: Component,
        hours: &'a [BidHour; 24],
    ) -> Bids<'a> {
        let key = (event.record.unit, component);
        let r = event.settled.references[&key];
        let c = event.settled.corrections.get(&key).copied().unwrap_or(r);
        let Component(component) = component;
        Bids {
            event,
            component,
            name: format!("component {component}"),
            r,
            c,
            hours,
        }
    }

    /// The bid of an hour.
    pub fn a(&self, hour: usize) -> i64 {
        i64::from(self.hours[hour].bid)
    }
}

pub fn reach(reached: &mut Reached, bids: &Bids) {
    let Bids { event, name, r, .. } = bids;
    reached.add(format!("{name} {}", event.market()));
    reached.add_if(event.row.flags.0 != 0, &format!("{name}: flagged"));
    reached.add_if(event.row.mitigated.0 != 0, &format!("{name}: mitigated"));
    for hour in 0..24 {
        let a = bids.a(hour);
        match bids.component {
            0 | 1 => reach_energy(reached, bids, hour),
            2 => reach_reserve(reached, a, *r),
            3 => reached.line(a - r, 2 * r, "component 3, 2 × r"),
            4..=6 => reach_times(reached, bids, hour),
            7 => reached.line(a, 2 * r, "component 7, 2 × r"),
            _ => reached.line(-a, -((r + 1) / 2), "component 8, r / 2"),
        }
    }
}

fn reach_energy(reached: &mut Reached, bids: &Bids, hour: usize) {
    let Bids { event, name, r, .. } = bids;
    let a = bids.a(hour);
    let d = a - r;
    if a >= 2_500 && 3 * r < 10_000 {
        reached.line(d, 3 * r, &format!("{name}, 3 × r"));
    }
    if a >= 2_500 && 3 * r > 10_000 {
        reached.line(d, 10_000, &format!("{name}, 10,000"));
    }
    if d > (3 * r).min(10_000) && !event.tight(hour) {
        reached.line(a, 2_499, &format!("{name}, floor"));
    }
    if event.record.market == Market::REAL_TIME && event.tight(hour) {
        reach_constrained(reached, bids, hour);
    }
}

/// A tight hour of Real-Time.
fn reach_constrained(reached: &mut Reached, bids: &Bids, hour: usize) {
    let Bids { event, name, r, .. } = bids;
    let (a, unit) = (bids.a(hour), event.unit);
    if unit.constrained_hours == 0 {
        reached.add(format!("{name}: tight, no Constrained Hours"));
        return;
    }
    let line = 1_752 * i64::from(unit.average_price) / (10 * i64::from(unit.constrained_hours));
    reached.line(a - r, line, &format!("{name}, constrained"));
    reached.add_if(
        event.flagged(hour) && a < 2_500,
        &format!("{name}: constrained, below the floor"),
    );
}

fn reach_reserve(reached: &mut Reached, a: i64, r: i64) {
    let d = a - r;
    if a >= 500 && 3 * r < 5_000 {
        reached.line(d, 3 * r, "component 2, 3 × r");
    }
    if a >= 500 && 3 * r > 5_000 {
        reached.line(d, 5_000, "component 2, 5,000");
    }
    if d > (3 * r).min(5_000) {
        reached.line(a, 499, "component 2, floor");
    }
}

fn reach_times(reached: &mut Reached, bids: &Bids, hour: usize) {
    let Bids { event, name, r, .. } = bids;
    let (d, sum) = (bids.a(hour) - r, event.time_sum(hour));
    reached.line(d, 180, &format!("{name}, 180"));
    if (1..=180).contains(&d) {
        reached.line(sum, 360, &format!("{name}, sum"));
    }
    reached.add_if(
        d <= 0 && sum > 360,
        &format!("{name}: no increase beside a large sum"),
    );
}

/// The lines of all components.
const LINES: [&str; 20] = [
    "component 0, 3 × r",
    "component 0, 10,000",
    "component 0, floor",
    "component 0, constrained",
    "component 1, 3 × r",
    "component 1, 10,000",
    "component 1, floor",
    "component 1, constrained",
    "component 2, 3 × r",
    "component 2, 5,000",
    "component 2, floor",
    "component 3, 2 × r",
    "component 4, 180",
    "component 5, 180",
    "component 6, 180",
    "component 4, sum",
    "component 5, sum",
    "component 6, sum",
    "component 7, 2 × r",
    "component 8, r / 2",
];

pub fn edges() -> Vec<String> {
    let mut expected = at_and_over(&LINES);
    expected.extend(
        [
            "component 0: constrained, below the floor",
            "component 1: constrained, below the floor",
            "component 0: tight, no Constrained Hours",
        ]
        .map(String::from),
    );
    for component in 0..9 {
        for what in [" Day-Ahead", " Real-Time", ": flagged", ": mitigated"] {
            expected.push(format!("component {component}{what}"));
        }
    }
    for component in 4..7 {
        expected.push(format!(
            "component {component}: no increase beside a large sum"
        ));
    }
    expected
}

//! Fuel events: M and its window, E and T of their party-days, each plant's part of E, and the cut of X.

use std::collections::BTreeSet;

use cases::calendar::{month_and_day, window_start};
use cases::{Conduct, Kind, Market};
use second::{FuelPartyDay, fuel_party_days};

use crate::Reached;
use crate::settled::{Settled, SettledEvent};

pub fn reach(reached: &mut Reached, event: &SettledEvent) {
    let row = event.row;
    reached.add(format!("fuel: multiplier {}", row.multiplier.0));
    reached.add_if(
        row.penalty.0 > 0 && row.flags.0 == 0,
        "fuel: penalty, no flag",
    );
    reached.add_if(row.penalty.0 > 0, "fuel: penalty");
    reached.add_if(
        row.multiplier.0 > 0 && row.penalty.0 == 0,
        "fuel: M, no penalty",
    );
    if row.multiplier.0 > 0 {
        reach_past_entries(reached, event);
        reach_penalties(reached, event);
        reach_multiplier(reached, event);
    }
    reach_subtotal(reached, event);
}

/// How many plants a party-day has.
const PLANTS: [&str; 3] = ["one plant", "two plants", "three plants or more"];

/// A plant's part of E: its Q, and a × b in the hours of its own P and in those that only other plants of the party-day
/// have in theirs.
fn reach_subtotal(reached: &mut Reached, event: &SettledEvent) {
    let Conduct::Fuel {
        inaccurate,
        guarantee_change,
        hours,
        ..
    } = &event.record.conduct
    else {
        panic!("no fuel event");
    };
    let plants = PLANTS[event.together().0.min(PLANTS.len()) - 1];
    reached.add(format!("fuel: {plants}"));
    reached.add_if(*guarantee_change < 0, &format!("fuel: {plants}, Q below 0"));
    let (own, union) = (*inaccurate, event.row.flags.0);
    for (whose, mask) in [("an own hour", own), ("another's hour", union & !own)] {
        let cells = (0..24_usize).filter(|&hour| mask >> hour & 1 == 1);
        let mut cells = cells
            .map(|hour| &hours[hour])
            .filter(|hour| hour.energy > 0);
        let below_0 = cells.any(|hour| hour.price_change < 0);
        reached.add_if(below_0, &format!("fuel: {plants}, b below 0 in {whose}"));
    }
}

/// The days at and next to the edges of the window of a day.
fn window_edges(day: u32) -> [(&'static str, i64); 5] {
    let (first, day) = (i64::from(window_start(day)), i64::from(day));
    [
        ("on the day after", day + 1),
        ("on the same day", day),
        ("on the day before", day - 1),
        ("on the window's first day", first),
        ("on the day before the window", first - 1),
    ]
}

/// Counts an earlier violation by the edges of the event's window that it stands at.
fn reach_edges(reached: &mut Reached, event: &SettledEvent, day: u32, what: &str) {
    for (edge, at) in window_edges(event.record.day) {
        reached.add_if(i64::from(day) == at, &format!("fuel: {what} {edge}"));
    }
}

fn reach_past_entries(reached: &mut Reached, event: &SettledEvent) {
    for entry in &event.settled.case.past {
        if entry.kind == Kind::FUEL && entry.group == event.unit.group {
            reach_edges(reached, event, entry.day, "past entry");
        }
    }
}

fn reach_penalties(reached: &mut Reached, event: &SettledEvent) {
    let day_and_market = |event: &SettledEvent| (event.record.day, event.record.market);
    for other in event.settled.events() {
        if other.record.kind() == Kind::FUEL
            && other.row.multiplier.0 > 0
            && other.unit.group == event.unit.group
            && day_and_market(&other) != day_and_market(event)
        {
            let what = if other.row.penalty.0 > 0 {
                "penalty"
            } else {
                "cut penalty"
            };
            reach_edges(reached, event, other.record.day, what);
        }
    }
}

/// The days of the group's fuel penalties, here and in the past.
fn penalty_days(event: &SettledEvent) -> BTreeSet<u32> {
    let group = event.unit.group;
    let past = event.settled.case.past.iter();
    let past = past.filter(|entry| entry.kind == Kind::FUEL && entry.group == group);
    let here = event.settled.events().filter(|other| {
        other.record.kind() == Kind::FUEL && other.row.penalty.0 > 0 && other.unit.group == group
    });
    let here = here.map(|other| other.record.day);
    past.map(|entry| entry.day).chain(here).collect()
}

/// What M looks back on: the window's length, and whether one day at its edge decides.
fn reach_multiplier(reached: &mut Reached, event: &SettledEvent) {
    let day = event.record.day;
    let (first, m) = (window_start(day), event.row.multiplier.0);
    let days = penalty_days(event);
    let counted: Vec<u32> = days.range(first..day).copied().collect();
    assert_eq!(m, if counted.is_empty() { 2 } else { 3 });
    let length = day - first;
    if month_and_day(day).0 < 6 {
        reached.add(format!("fuel: M {m}, window cut at day 0"));
    } else {
        reached.add_if(
            counted == [first],
            &format!("fuel: M 3 by the first of {length} days alone"),
        );
        let day_before = first.checked_sub(1);
        reached.add_if(
            m == 2 && day_before.is_some_and(|before| days.contains(&before)),
            &format!("fuel: M 2 with the day before {length} days"),
        );
    }
    // The month six months earlier has no such day.
    let shorter = month_and_day(first).1 < month_and_day(day).1 && first > 0;
    reached.add_if(shorter, &format!("fuel: M {m}, day of a longer month"));
}

pub fn reach_party_days(reached: &mut Reached, settled: &Settled) {
    for day in fuel_party_days(&settled.input.file, &settled.input.correction).unwrap() {
        reached.add_if(day.e < 0, "fuel: E below 0");
        reached.add_if(day.e < 0 && day.t > 0, "fuel: E below 0, T above");
        reached.add_if(day.t == 0, "fuel: T 0");
        for m in [2, 3] {
            if has_multiplier(settled, &day, m) {
                reach_cut(reached, &day, m);
            }
        }
    }
}

fn has_multiplier(settled: &Settled, day: &FuelPartyDay, m: u8) -> bool {
    settled.events().any(|event| {
        event.record.kind() == Kind::FUEL
            && (event.record.day, event.record.market) == (day.day, Market(day.market))
            && event.unit.group == day.group
            && event.row.multiplier.0 == m
    })
}

fn reach_cut(reached: &mut Reached, day: &FuelPartyDay, m: u8) {
    let x = i64::from(m) * day.e + 20 * day.t;
    // With M 2, X is even.
    let just_below = if m == 2 { 9_999_998 } else { 9_999_999 };
    reached.add_if(x == just_below, &format!("fuel: X just below, M {m}"));
    reached.add_if(
        (10_000_000..=10_000_002).contains(&x),
        &format!("fuel: X at the cut, M {m}"),
    );
}

pub fn edges() -> Vec<String> {
    let mut expected = [
        "fuel: multiplier 0",
        "fuel: multiplier 2",
        "fuel: multiplier 3",
        "fuel: penalty, no flag",
        "fuel: penalty",
        "fuel: M, no penalty",
        "fuel: E below 0",
        "fuel: E below 0, T above",
        "fuel: T 0",
        "fuel: X just below, M 2",
        "fuel: X just below, M 3",
        "fuel: X at the cut, M 2",
        "fuel: X at the cut, M 3",
    ]
    .map(String::from)
    .to_vec();
    expected.extend(edges_of_subtotals());
    for (edge, _) in window_edges(0) {
        for what in ["past entry", "penalty", "cut penalty"] {
            expected.push(format!("fuel: {what} {edge}"));
        }
    }
    for length in 181..=184 {
        expected.push(format!("fuel: M 3 by the first of {length} days alone"));
        expected.push(format!("fuel: M 2 with the day before {length} days"));
    }
    for m in [2, 3] {
        expected.push(format!("fuel: M {m}, window cut at day 0"));
        expected.push(format!("fuel: M {m}, day of a longer month"));
    }
    expected
}

fn edges_of_subtotals() -> Vec<String> {
    let mut expected = Vec::new();
    for plants in PLANTS {
        expected.push(format!("fuel: {plants}"));
        expected.push(format!("fuel: {plants}, Q below 0"));
        expected.push(format!("fuel: {plants}, b below 0 in an own hour"));
    }
    for plants in &PLANTS[1..] {
        expected.push(format!("fuel: {plants}, b below 0 in another's hour"));
    }
    expected
}

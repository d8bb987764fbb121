//! What generated cases reach: every kind, component and market, every threshold exactly and one
//! over it, the windows on both sides, the ends of months and periods, and every kind of correction.

mod bids;
mod days;
mod default_bids;
mod dispatch;
mod fuel;
mod kinds;
mod settled;
mod whole_case;
mod withheld;

use std::collections::BTreeMap;

use bids::Bids;
use cases::generator::{any_case_in, case};
use cases::{Conduct, Generated, Random, Size, Version, Wanted};
use settled::Settled;

/// Counts by what was reached.
#[derive(Default)]
struct Reached(BTreeMap<String, usize>);

impl Reached {
    fn add(&mut self, what: impl Into<String>) {
        *self.0.entry(what.into()).or_default() += 1;
    }

    fn add_if(&mut self, condition: bool, what: &str) {
        if condition {
            self.add(what);
        }
    }

    /// A figure that must exceed a line: at it, or one over it.
    fn line(&mut self, value: i64, largest_passing: i64, what: &str) {
        self.add_if(value == largest_passing, &format!("{what}: at the line"));
        self.add_if(value == largest_passing + 1, &format!("{what}: one over"));
    }
}

fn reach(reached: &mut Reached, generated: &Generated) {
    let settled = Settled::of(generated);
    whole_case::reach(reached, &settled);
    days::reach(reached, &settled);
    for event in settled.events() {
        kinds::reach(reached, &event);
        match &event.record.conduct {
            Conduct::Withheld { hours, impact, .. } => {
                withheld::reach(reached, &event, hours, *impact);
            }
            Conduct::Dispatch { hours, .. } => dispatch::reach(reached, &event, hours),
            Conduct::Fuel { .. } => fuel::reach(reached, &event),
            Conduct::Bids {
                component,
                hours,
                impact,
                minimum_run_hours,
                ..
            } => {
                let bids = Bids::of(&event, *component, hours);
                bids::reach(reached, &bids);
                default_bids::reach(reached, &bids, *impact, *minimum_run_hours);
            }
        }
    }
    fuel::reach_party_days(reached, &settled);
}

#[test]
fn generated_cases_reach_every_edge() {
    reach_every_edge(Version::One);
}

#[test]
fn generated_cases_of_version_2_reach_every_edge() {
    reach_every_edge(Version::Two);
}

fn reach_every_edge(version: Version) {
    let mut random = Random::new(10);
    let mut reached = Reached::default();
    for _ in 0..4_000 {
        let generated = any_case_in(version, &mut random);
        reach(&mut reached, &generated);
    }
    for _ in 0..60 {
        let wanted = Wanted::of(Size::Full).in_version(version);
        reach(&mut reached, &case(&mut random, wanted));
    }
    for (what, times) in &reached.0 {
        println!("{times:8} {what}");
    }
    let expected = edges();
    println!("{version:?}: {} edges", expected.len());
    for what in expected {
        let times = reached.0.get(&what).copied().unwrap_or(0);
        assert!(times >= 10, "{version:?}, {what}: {times}");
    }
}

/// What generated cases have to reach.
fn edges() -> Vec<String> {
    [
        whole_case::edges(),
        days::edges(),
        kinds::edges(),
        withheld::edges(),
        dispatch::edges(),
        fuel::edges(),
        bids::edges(),
        default_bids::edges(),
    ]
    .concat()
}

/// Lines that have to be reached, each at it and one over it.
fn at_and_over(lines: &[&str]) -> Vec<String> {
    let both = |line| [format!("{line}: at the line"), format!("{line}: one over")];
    lines.iter().flat_map(both).collect()
}

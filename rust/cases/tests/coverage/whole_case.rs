//! The correction of a case, its groups and days, and its past.

use std::collections::BTreeSet;

use crate::Reached;
use crate::settled::Settled;

pub fn reach(reached: &mut Reached, settled: &Settled) {
    reached.add(correction(settled));
    let case = settled.case;
    let groups: BTreeSet<u16> = case.units.iter().map(|unit| unit.group).collect();
    let days: BTreeSet<u32> = case.events.iter().map(|event| event.day).collect();
    reached.add_if(
        groups.len() >= 3 && days.len() >= 3,
        "several groups and days",
    );
    reached.add_if(
        case.past.iter().any(|entry| !groups.contains(&entry.group)),
        "past entry of an unlisted group",
    );
    reached.add_if(case.events.is_empty(), "no events");
}

fn correction(settled: &Settled) -> &'static str {
    let mut own = settled.references.keys();
    let missing = own.any(|key| !settled.corrections.contains_key(key));
    match settled.correction {
        [] => "correction: empty",
        entries if *entries == settled.case.references[..] => "correction: equal to own",
        _ if missing => "correction: different, with missing entries",
        _ => "correction: different, complete",
    }
}

pub fn edges() -> Vec<String> {
    [
        "correction: empty",
        "correction: equal to own",
        "correction: different, complete",
        "correction: different, with missing entries",
        "several groups and days",
        "past entry of an unlisted group",
        "no events",
    ]
    .map(String::from)
    .to_vec()
}

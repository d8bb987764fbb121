//! Kinds and markets of events, and whether they are flagged.

use cases::Kind;

use crate::Reached;
use crate::settled::SettledEvent;

pub fn reach(reached: &mut Reached, event: &SettledEvent) {
    let (events, _) = event.together();
    let (Kind(kind), market, flags) = (event.record.kind(), event.market(), event.row.flags.0);
    reached.add(format!("kind {kind} {market}"));
    reached.add_if(*events > 1, &format!("kind {kind}: shared party-day"));
    reached.add_if(flags != 0, &format!("kind {kind}: flagged"));
    reached.add_if(flags == 0, &format!("kind {kind}: not flagged"));
}

pub fn edges() -> Vec<String> {
    let mut expected = [
        "kind 1 Day-Ahead",
        "kind 1 Real-Time",
        "kind 2 Real-Time",
        "kind 3 Day-Ahead",
        "kind 3 Real-Time",
        "kind 4 Day-Ahead",
        "kind 4 Real-Time",
    ]
    .map(String::from)
    .to_vec();
    for kind in 1..=4 {
        expected.push(format!("kind {kind}: shared party-day"));
        expected.push(format!("kind {kind}: flagged"));
        expected.push(format!("kind {kind}: not flagged"));
    }
    expected
}

//! The generated cases that the benchmark times in turn, and the same cases with fewer events.

use crate::case::{Case, Event, Version};
use crate::generator::{Generated, Size, Wanted, case};
use crate::random::Random;

/// The seed of the cases.
pub const SEED: u64 = 1;
/// How many there are.
pub const CASES: usize = 40;
/// The numbers of events; the last is a full case's.
pub const STEPS: [usize; 4] = [25, 50, 100, 200];

/// The first full version 1 cases of the seed.
pub fn full_cases() -> Vec<Generated> {
    full_cases_in(Version::One)
}

/// The first full cases of a version, of the seed.
pub fn full_cases_in(version: Version) -> Vec<Generated> {
    let mut random = Random::new(SEED);
    let wanted = Wanted::of(Size::Full).in_version(version);
    (0..CASES).map(|_| case(&mut random, wanted)).collect()
}

/// A case with `count` of its events, evenly spread over those of each kind, so that none is left without; units,
/// references, past entries and the correction stay.
pub fn with_events(full: &Generated, count: usize) -> Generated {
    let mut by_kind = full.case.events.clone();
    by_kind.sort_by_key(Event::kind);
    let mut case = Case {
        events: (0..count)
            .map(|place| by_kind[place * by_kind.len() / count])
            .collect(),
        ..full.case.clone()
    };
    case.sort_events();
    Generated {
        case,
        correction: full.correction.clone(),
    }
}

//! Random cases of either version that break nothing, with figures at and next to every threshold.

mod days;
mod figures;
mod maker;
mod noise;

use attachment_h::Component;

use crate::case::{Case, Input, Reference, Version};
use crate::random::Random;
pub use days::past_day;
use maker::Maker;
pub use noise::{random_bytes, random_bytes_in};

/// How large a case is to be.
#[derive(Clone, Copy, Debug, PartialEq, Eq)]
pub enum Size {
    /// Up to 10 events.
    Small,
    /// 10 to 70 events.
    Medium,
    /// 200 events in a file of 65,000 bytes.
    Full,
}

/// What a case is to be like.
#[derive(Clone, Copy, Debug, PartialEq, Eq)]
pub struct Wanted {
    /// The version of its file.
    pub version: Version,
    /// How large.
    pub size: Size,
    /// Every fuel party-day has E ≥ 0: the premise of demand 3.
    pub fuel_not_negative: bool,
    /// Every section has records, and every kind has events.
    pub every_kind: bool,
}

impl Wanted {
    /// Any case of version 1 and of this size.
    pub fn of(size: Size) -> Wanted {
        Wanted {
            version: Version::One,
            size,
            fuel_not_negative: false,
            every_kind: false,
        }
    }

    /// A small case with records in every section and events of every kind.
    pub fn every_kind() -> Wanted {
        Wanted {
            every_kind: true,
            ..Wanted::of(Size::Small)
        }
    }

    /// The same in that version.
    pub fn in_version(self, version: Version) -> Wanted {
        Wanted { version, ..self }
    }
}

/// A case with its correction.
#[derive(Clone, Debug, PartialEq, Eq)]
pub struct Generated {
    /// The case.
    pub case: Case,
    /// The correction; empty for none.
    pub correction: Vec<Reference>,
}

impl Generated {
    /// The bytes, with exactly as many rows as events.
    pub fn input(&self) -> Input {
        Input::new(&self.case, &self.correction)
    }

    /// The same in version 1, its units numbered 0, 1, 2 and so on in their order: of a number no figure reads more
    /// than which comes first.
    pub fn numbered_through(&self) -> Generated {
        let units = &self.case.units;
        let place = |number: u32| units.iter().position(|unit| unit.unit == number);
        let number = |number: u32| place(number).expect("a listed unit") as u32;
        let reference = |reference: &Reference| Reference {
            unit: number(reference.unit),
            ..*reference
        };
        let mut case = self.case.clone().in_version(Version::One);
        for unit in &mut case.units {
            unit.unit = number(unit.unit);
        }
        for event in &mut case.events {
            event.unit = number(event.unit);
        }
        case.references = case.references.iter().map(reference).collect();
        Generated {
            case,
            correction: self.correction.iter().map(reference).collect(),
        }
    }
}

/// A version 1 case of a size drawn from all three, full ones seldom.
pub fn any_case(random: &mut Random) -> Generated {
    any_case_in(Version::One, random)
}

/// The same of a version.
pub fn any_case_in(version: Version, random: &mut Random) -> Generated {
    let size = match random.below(20) {
        0 => Size::Full,
        1..=7 => Size::Medium,
        _ => Size::Small,
    };
    case(random, Wanted::of(size).in_version(version))
}

/// A random case that breaks nothing.
pub fn case(random: &mut Random, wanted: Wanted) -> Generated {
    Maker::new(random, wanted).make()
}

/// "value u32, at most 1,000,000 for components 0 to 2, else 1,000,000,000".
pub fn reference_limit(component: Component) -> i64 {
    if component <= Component::RESERVE_OR_REGULATION {
        1_000_000
    } else {
        1_000_000_000
    }
}

/// "±1,000,000 for components 0 and 1, 0 to 1,000,000 for 2, 0 to 1,000,000,000 above".
pub fn bid_limits(component: Component) -> (i64, i64) {
    match component.0 {
        0 | 1 => (-1_000_000, 1_000_000),
        2 => (0, 1_000_000),
        _ => (0, 1_000_000_000),
    }
}

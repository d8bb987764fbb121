//! How a random case is put together.

mod events;
mod references;

use std::collections::BTreeSet;

use attachment_h::{Component, Kind, Market};

use super::days::days;
use super::figures::{past_entry, six_digit_numbers, unit};
use super::{Generated, Size, Wanted};
use crate::case::{Case, HEADER_BYTES, LARGEST_FILE, PAST_BYTES, Reference, Section, Version};
use crate::random::Random;

/// (day, kind, market, unit, component) of an event.
type Key = (u32, Kind, Market, u32, Component);

/// A case that is being put together.
pub struct Maker<'a> {
    random: &'a mut Random,
    wanted: Wanted,
    groups: Vec<u16>,
    days: Vec<u32>,
    case: Case,
    correction: Vec<Reference>,
    keys: BTreeSet<Key>,
}

/// Events of a full case.
const FULL: usize = Section::Events.most();

impl<'a> Maker<'a> {
    /// A case with nothing in it yet.
    pub fn new(random: &'a mut Random, wanted: Wanted) -> Maker<'a> {
        let groups = (0..1 + random.below(4))
            .map(|_| random.pick(&[0, 1, 2, 7, 300, 65_535]))
            .collect();
        let days = days(random, wanted.size == Size::Full);
        Maker {
            random,
            wanted,
            groups,
            days,
            case: Case::default().in_version(wanted.version),
            correction: Vec::new(),
            keys: BTreeSet::new(),
        }
    }

    /// The case, all of it drawn.
    pub fn make(mut self) -> Generated {
        self.choose_units();
        self.choose_events();
        self.choose_references();
        self.choose_correction();
        self.choose_past();
        self.fill_events();
        Generated {
            case: self.case,
            correction: self.correction,
        }
    }

    /// Bytes of a record in the version of the case.
    fn width(&self, section: Section) -> usize {
        section.width(self.wanted.version)
    }

    /// Bytes of a full file that its header, its events and its units leave to references and past entries.
    fn bytes_left(&self) -> usize {
        let units = self.width(Section::Units) * self.case.units.len();
        LARGEST_FILE - HEADER_BYTES - self.width(Section::Events) * FULL - units
    }

    fn choose_units(&mut self) {
        let count = self.unit_count();
        let random = &mut *self.random;
        let mut number = random.pick(&[0, 1, 12, 40_000]);
        let area_chance = random.below(4);
        for _ in 0..count {
            let drawn = unit(random, number, &self.groups, area_chance);
            self.case.units.push(drawn);
            number += random.pick(&[1, 1, 1, 2, 9, 300]);
        }
        // Some cases of version 2 have numbers as in version 1.
        if self.wanted.version == Version::Two && random.chance(4, 5) {
            let numbers = six_digit_numbers(random, count);
            for (unit, number) in self.case.units.iter_mut().zip(numbers) {
                unit.unit = number;
            }
        }
    }

    fn unit_count(&mut self) -> usize {
        let random = &mut *self.random;
        let count = match (self.wanted.size, self.wanted.version) {
            (Size::Small, _) => 1 + random.below(5),
            (Size::Medium, _) => 2 + random.below(20),
            (Size::Full, Version::One) => 12 + random.below(53),
            // 7 × units + 3 × references + 3 × past is 441 in a full file, and references need some of it.
            (Size::Full, Version::Two) => 3 * (4 + random.below(13)),
        };
        if self.wanted.every_kind {
            count.max(3)
        } else {
            count
        }
    }

    /// The most reference records that fit in beside the rest.
    fn reference_budget(&self) -> usize {
        let units = self.case.units.len();
        match self.wanted.size {
            // Room for two more, and for a past section of any length.
            Size::Full => (self.bytes_left() / self.width(Section::References) - 12)
                .min(9 * units - 3)
                .min(250),
            _ => 250.min(9 * units),
        }
    }

    fn choose_past(&mut self) {
        let count = match self.wanted.size {
            Size::Small => self.random.below(8),
            Size::Medium => self.random.below(40),
            Size::Full => {
                let references = self.width(Section::References) * self.case.references.len();
                (self.bytes_left() - references) / PAST_BYTES
            }
        };
        let count = if self.wanted.every_kind {
            count.max(2)
        } else {
            count
        };
        for _ in 0..count {
            let entry = past_entry(self.random, &self.groups, &self.days);
            self.case.past.push(entry);
            // Repeats are allowed, and count.
            if self.case.past.len() < count && self.random.chance(1, 6) {
                self.case.past.push(entry);
            }
            if self.case.past.len() >= count {
                break;
            }
        }
    }
}

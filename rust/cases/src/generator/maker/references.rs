//! The references of a case, and its correction.

use std::collections::{BTreeMap, BTreeSet};

use attachment_h::{Component, Kind};

use super::Maker;
use crate::case::{Reference, Version};
use crate::generator::figures::reference_value;
use crate::generator::{Size, reference_limit};
use crate::random::Random;

impl Maker<'_> {
    /// Those that the bids read, and some more.
    pub(super) fn choose_references(&mut self) {
        let mut references: BTreeSet<(u32, Component)> = self
            .keys
            .iter()
            .filter(|key| key.1 == Kind::BIDS)
            .map(|key| (key.3, key.4))
            .collect();
        let more = match self.wanted.size {
            Size::Full => 0,
            _ if self.wanted.every_kind => 4,
            _ => self.random.below(4),
        };
        let enough = (references.len() + more).min(self.reference_budget());
        // 6 × units + 2 × references + 3 × past is 641 in a full file of version 1, so that the number of references
        // leaves 1 when divided by 3.
        let in_threes = (self.wanted.size, self.wanted.version) == (Size::Full, Version::One);
        while references.len() < enough || (in_threes && references.len() % 3 != 1) {
            let place = self.random.below(self.case.units.len());
            let unit = self.case.units[place].unit;
            references.insert((unit, Component(self.random.below(9) as u8)));
        }
        for (unit, component) in references {
            let value = reference_value(self.random, component);
            self.case.references.push(Reference {
                unit,
                component,
                value,
            });
        }
    }

    /// None, the case's own references, or others.
    pub(super) fn choose_correction(&mut self) {
        self.correction = match self.random.below(6) {
            0 | 1 => Vec::new(),
            2 => self.case.references.clone(),
            _ => self.correct_references(),
        };
    }

    /// A correct reference for each reference that a bid reads, and for some that none reads or the case does not have.
    fn correct_references(&mut self) -> Vec<Reference> {
        let read: BTreeSet<(u32, Component)> = self
            .keys
            .iter()
            .filter(|key| key.1 == Kind::BIDS && matches!(key.4.0, 0 | 1 | 3))
            .map(|key| (key.3, key.4))
            .collect();
        let random = &mut *self.random;
        let mut entries: BTreeMap<(u32, Component), u32> = BTreeMap::new();
        for reference in &self.case.references {
            let key = (reference.unit, reference.component);
            if read.contains(&key) || !random.chance(1, 2) {
                entries.insert(key, correct_value(random, reference));
            }
        }
        for _ in 0..random.below(4) {
            let unit = self.case.units[random.below(self.case.units.len())].unit;
            let component = Component(random.below(9) as u8);
            if entries.len() < 256 {
                let value = reference_value(random, component);
                entries.entry((unit, component)).or_insert(value);
            }
        }
        let reference = |((unit, component), value)| Reference {
            unit,
            component,
            value,
        };
        entries.into_iter().map(reference).collect()
    }
}

/// c: r itself, beside it, far above it or anywhere.
fn correct_value(random: &mut Random, reference: &Reference) -> u32 {
    let r = i64::from(reference.value);
    let c = match random.below(6) {
        0 | 1 => r,
        2 => r + 1,
        3 => r - 1,
        4 => 2 * r + random.between(0, 3_000),
        _ => i64::from(reference_value(random, reference.component)),
    };
    c.clamp(0, reference_limit(reference.component)) as u32
}

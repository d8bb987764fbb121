//! The events of a case: their keys first, and their figures once the references are there.

use std::collections::{BTreeSet, HashMap};

use attachment_h::{Component, Kind, Market};

use super::{FULL, Key, Maker};
use crate::calendar::period_of;
use crate::case::{Conduct, Event, Reference};
use crate::generator::Size;
use crate::generator::figures::{bids, dispatch, fuel, withheld};

/// Kinds of an event, each as often as it is to be drawn.
const ALL_KINDS: &[u8] = &[1, 2, 3, 4, 4];

/// Unit and component of the references that bids read.
type Referenced = BTreeSet<(u32, Component)>;

/// What is known of the events before one.
#[derive(Default)]
struct Earlier {
    /// The sums of one group, kind, day and market, hour by hour.
    party_days: HashMap<(u16, Kind, u32, Market), [i64; 24]>,
    /// The time increases of one unit, day and market, hour by hour.
    times: HashMap<(u32, u32, Market), [i64; 24]>,
    /// Whether a fuel party-day is to have an exact figure, by group, day and market.
    exact: HashMap<(u16, u32, Market), bool>,
}

impl Maker<'_> {
    /// The keys of all events.
    pub(super) fn choose_events(&mut self) {
        let count = match self.wanted.size {
            Size::Small => self.random.below(11),
            Size::Medium => self.random.between(10, 70) as usize,
            Size::Full => FULL,
        };
        let kinds = self.kinds();
        let mut referenced = Referenced::new();
        if self.wanted.every_kind {
            self.choose_every_kind(&mut referenced);
        }
        for _ in 0..count * 40 {
            if self.keys.len() >= count {
                break;
            }
            self.choose_event(kinds, count, &mut referenced);
        }
    }

    /// Some cases are about one kind, most about all.
    fn kinds(&mut self) -> &'static [u8] {
        let kinds: &[u8] = match self.random.below(10) {
            0 => &[1],
            1 => &[2, 2, 1],
            2 => &[3],
            3 => &[4],
            4 => &[1, 1, 1, 3],
            _ => ALL_KINDS,
        };
        if self.wanted.every_kind || self.wanted.size == Size::Full {
            ALL_KINDS
        } else {
            kinds
        }
    }

    fn choose_every_kind(&mut self, referenced: &mut Referenced) {
        for kind in Kind::ALL {
            for component in [0, 1, 3, 5].map(Component) {
                let unit = self.random.below(self.case.units.len());
                let key = self.key(kind, unit, component);
                if kind == Kind::BIDS {
                    referenced.insert((key.3, key.4));
                }
                self.keys.insert(key);
            }
        }
    }

    /// One event more, or the bids of all time components, as far as their references fit in.
    fn choose_event(&mut self, kinds: &[u8], count: usize, referenced: &mut Referenced) {
        let kind = Kind(self.random.pick(kinds));
        let unit = self.random.below(self.case.units.len());
        let component = Component(self.random.below(9) as u8);
        let (day, kind, market, unit, component) = self.key(kind, unit, component);
        // The time components mostly come together, which their sum needs.
        let together = kind == Kind::BIDS
            && component.is_time()
            && self.keys.len() + 3 <= count
            && self.random.chance(3, 4);
        let components = if together {
            4..=6
        } else {
            component.0..=component.0
        };
        let budget = self.reference_budget();
        for component in components.map(Component) {
            if kind == Kind::BIDS {
                if referenced.len() >= budget && !referenced.contains(&(unit, component)) {
                    continue;
                }
                referenced.insert((unit, component));
            }
            self.keys.insert((day, kind, market, unit, component));
        }
    }

    /// A key of this kind, with the fields that the kind lacks at 0.
    fn key(&mut self, kind: Kind, unit: usize, component: Component) -> Key {
        let day = self.random.pick(&self.days);
        let market = self.random.pick(&[Market::DAY_AHEAD, Market::REAL_TIME]);
        (
            day,
            kind,
            if kind == Kind::DISPATCH {
                Market::REAL_TIME
            } else {
                market
            },
            self.case.units[unit].unit,
            if kind == Kind::BIDS {
                component
            } else {
                Component(0)
            },
        )
    }

    /// The events of all keys.
    pub(super) fn fill_events(&mut self) {
        let mut earlier = Earlier::default();
        let references = by_key(&self.case.references);
        let correct = if self.correction.is_empty() {
            references.clone()
        } else {
            by_key(&self.correction)
        };
        let impact_chance = self.random.below(4);
        for key in std::mem::take(&mut self.keys) {
            let (day, _, market, unit, component) = key;
            let impact = u8::from(self.random.chance(impact_chance, 3));
            // Bids alone have an r, and c is r where the correction has none.
            let r = references.get(&(unit, component)).copied().unwrap_or(0);
            let c = correct.get(&(unit, component)).copied().unwrap_or(r);
            let conduct = self.conduct(key, impact, (r, c), &mut earlier);
            self.case.events.push(Event {
                day,
                market,
                unit,
                period: period_of(day),
                conduct,
            });
        }
    }

    /// The figures of an event, next to what the earlier ones leave to every threshold.
    fn conduct(
        &mut self,
        (day, kind, market, number, component): Key,
        impact: u8,
        (r, c): (i64, i64),
        earlier: &mut Earlier,
    ) -> Conduct {
        let random = &mut *self.random;
        let units = &self.case.units;
        let listed = units.iter().find(|unit| unit.unit == number);
        let unit = listed.expect("keys name listed units");
        let party_day = (unit.group, kind, day, market);
        let sums = earlier.party_days.entry(party_day).or_insert([0; 24]);
        match kind {
            Kind::WITHHELD => {
                let of_the_group = units.iter().filter(|other| other.group == unit.group);
                let capability = of_the_group.map(|other| i64::from(other.capability)).sum();
                withheld(random, unit, capability, impact, sums)
            }
            Kind::DISPATCH => dispatch(random, unit, impact, sums),
            Kind::FUEL => {
                let fuel_day = earlier.exact.entry((unit.group, day, market));
                let exact = *fuel_day.or_insert_with(|| random.chance(1, 3));
                // In an exact party-day the first event brings the figure, the others nothing.
                let first = *sums == [0; 24];
                *sums = [1; 24];
                fuel(random, market, exact, first, self.wanted.fuel_not_negative)
            }
            _ => {
                let sums = earlier
                    .times
                    .entry((number, day, market))
                    .or_insert([0; 24]);
                bids(random, unit, component, r, c, sums)
            }
        }
    }
}

fn by_key(references: &[Reference]) -> HashMap<(u32, Component), i64> {
    references
        .iter()
        .map(|reference| {
            (
                (reference.unit, reference.component),
                i64::from(reference.value),
            )
        })
        .collect()
}

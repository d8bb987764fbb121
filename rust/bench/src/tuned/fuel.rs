//! Inaccurate fuel data: the party-days, what raises their multiplier, and the penalties.

use super::calendar::window_start;
use super::columns::{Hours, energy_value};
use super::parties::List;
use super::past::FUEL;
use super::row::{ROW_BYTES, Row};
use super::{Case, Scratch};

/// Below this, in twentieths of a cent, there is no penalty: 5,000 dollars.
const LEAST_CHARGE: i64 = 10_000_000;

/// What is added over the events of a party-day.
#[derive(Clone, Copy, Default)]
struct PartyDay {
    /// The hours of P of any of them.
    union: u32,
    /// Q, in cents.
    guarantee: i64,
    /// R, in cents.
    tcc: i64,
    /// a × b over the union, in tenths of a cent.
    energy: i64,
}

impl PartyDay {
    /// X with a multiplier in halves, in twentieths of a cent.
    fn charge(&self, multiplier: i64) -> i64 {
        multiplier * (10 * self.guarantee + self.energy) + 20 * self.tcc.max(0)
    }
}

/// Writes the rows of fuel events; the sum of their penalties.
#[inline(never)]
pub fn settle(case: &Case, scratch: &mut Scratch, rows: &mut [[u8; ROW_BYTES]]) -> u64 {
    let list = case.parties.list(List::Fuel);
    if list.is_empty() {
        return 0;
    }
    let party_days = party_days(case, list, scratch.columns);
    let mut priors = Priors::new(case, list.len());
    let mut penalties = 0;
    // Party-days are numbered as they come: the first event of one, which is of its lowest unit, has a new number.
    let mut seen = 0;
    for &place in list {
        let number = case.parties.number(place);
        let party_day = &party_days[number];
        let mut row = Row {
            flags: party_day.union,
            ..Row::default()
        };
        if number >= seen {
            seen = number + 1;
            let party = case.unit_of(place).party;
            let day = case.events.event(place).day();
            let multiplier = if priors.count(party, day) { 3 } else { 2 };
            let charge = party_day.charge(multiplier);
            row.multiplier = multiplier.cast_unsigned();
            if charge >= LEAST_CHARGE {
                row.penalty = (charge.cast_unsigned() + 10) / 20;
                penalties += row.penalty;
                priors.add(party, day);
            }
        }
        row.put(&mut rows[usize::from(place)]);
    }
    penalties
}

/// The sums of the party-days, by their numbers.
fn party_days(case: &Case, list: &[u8], columns: &mut [Hours]) -> Vec<PartyDay> {
    let mut party_days = vec![PartyDay::default(); case.parties.count(List::Fuel)];
    let (energy, changes) = columns.split_at_mut(list.len());
    for (&place, (a, b)) in list.iter().zip(energy.iter_mut().zip(&mut *changes)) {
        let event = case.events.event(place);
        event.put_a(a);
        event.put_b(b);
        let party_day = &mut party_days[case.parties.number(place)];
        party_day.union |= event.p();
        party_day.guarantee += i64::from(event.q().cast_signed());
        party_day.tcc += i64::from(event.r().cast_signed());
    }
    for (&place, (a, b)) in list.iter().zip(energy.iter().zip(&*changes)) {
        let party_day = &mut party_days[case.parties.number(place)];
        party_day.energy += energy_value(a, b, party_day.union);
    }
    party_days
}

/// The days of fuel penalties, of the past and of this file.
struct Priors {
    /// The party in the high half, the day in the low one.
    days: Vec<u32>,
}

#[inline(always)]
fn key(party: u32, day: u32) -> u32 {
    party << 16 | day
}

impl Priors {
    /// Those of the past, with room for so many more.
    fn new(case: &Case, more: usize) -> Priors {
        let entries = case.past.entries();
        let mut days = Vec::with_capacity(entries.len() + more);
        days.extend(entries.map(|entry| {
            match case.tables.units.party(entry.group) {
                Some(party) if entry.kind == FUEL => key(party, entry.day),
                // No party has this number.
                _ => u32::MAX,
            }
        }));
        Priors { days }
    }

    /// Whether a party was penalised in the window of a day.
    fn count(&self, party: u32, day: u32) -> bool {
        let start = window_start(day);
        let (first, length) = (key(party, start), day - start);
        let mut found = false;
        for prior in &self.days {
            found |= prior.wrapping_sub(first) < length;
        }
        found
    }

    fn add(&mut self, party: u32, day: u32) {
        self.days.push(key(party, day));
    }
}

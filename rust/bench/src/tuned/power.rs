//! Capacity withheld and dispatch not followed: the party's power hour by hour, the flags, and the penalties.

use super::columns::{Hours, add, either_above, sum, value};
use super::instances::{Instances, multiplier};
use super::parties::List;
use super::row::{ROW_BYTES, Row};
use super::{Case, Scratch};

/// The lines of one unit and of its party, and what they come down to in a tight hour.
const UNIT_LINE: u32 = 1_000;
const PARTY_LINE: u32 = 2_000;
const TIGHT_UNIT_LINE: u32 = 500;
const TIGHT_PARTY_LINE: u32 = 1_000;

/// Adds up a by party-days.
fn add_up(case: &Case, list: &[u8], amounts: &[Hours], sums: &mut [Hours]) {
    for (&place, a) in list.iter().zip(amounts) {
        add(&mut sums[case.parties.number(place)], a);
    }
}

/// Writes the rows of withheld events; the sum of their penalties.
#[inline(never)]
pub fn settle_withheld(case: &Case, scratch: &mut Scratch, rows: &mut [[u8; ROW_BYTES]]) -> u64 {
    let list = case.parties.list(List::Withheld);
    if list.is_empty() {
        return 0;
    }
    let sums = scratch.sums(case.parties.count(List::Withheld));
    let amounts = case.columns(list, scratch.columns);
    add_up(case, list, amounts, sums);
    let mut instances = Instances::new(case, list.len());
    let mut penalties = 0;
    for (&place, a) in list.iter().zip(amounts) {
        let event = case.events.event(place);
        let unit = case.unit_of(place);
        let sums = &sums[case.parties.number(place)];
        // 10 × a > capability where a is above a tenth of it, without the rest; so is a twentieth of the party's.
        let line = (unit.capability / 10).min(UNIT_LINE);
        let party_line = (case.tables.units.party_capability(unit.party) / 20).min(PARTY_LINE);
        let tight = event.p() & unit.constrained;
        let flags = either_above(a, line, sums, party_line)
            | tight & either_above(a, TIGHT_UNIT_LINE, sums, TIGHT_PARTY_LINE);
        let mut row = Row {
            flags,
            ..Row::default()
        };
        if (event.impact() == 1) & (flags != 0) {
            (row.n3, row.n2) = instances.count(unit.party, event.market(), event.period());
            row.multiplier = multiplier(row.n3, row.n2);
            // In twentieths of a cent, to the nearest cent.
            row.penalty = (row.multiplier * value(a, &event.b(), flags) + 10) / 20;
            penalties += row.penalty;
        }
        row.put(&mut rows[usize::from(place)]);
    }
    penalties
}

/// Writes the rows of dispatch events; the sum of their penalties.
#[inline(never)]
pub fn settle_dispatch(case: &Case, scratch: &mut Scratch, rows: &mut [[u8; ROW_BYTES]]) -> u64 {
    let list = case.parties.list(List::Dispatch);
    let sums = scratch.sums(case.parties.count(List::Dispatch));
    let amounts = case.columns(list, scratch.columns);
    add_up(case, list, amounts, sums);
    let mut penalties = 0;
    for (&place, a) in list.iter().zip(amounts) {
        let event = case.events.event(place);
        let unit = case.unit_of(place);
        let sums = &sums[case.parties.number(place)];
        let line = (15 * unit.response_rate).min(UNIT_LINE);
        let tight = event.p() & unit.constrained;
        let flags = either_above(a, line, sums, PARTY_LINE)
            | tight & either_above(a, TIGHT_UNIT_LINE, sums, TIGHT_PARTY_LINE);
        let mut row = Row {
            flags,
            ..Row::default()
        };
        if (event.impact() == 1) & (flags != 0) {
            row.multiplier = 3;
            // In halves of a cent, a half upwards.
            row.penalty = (3 * sum(&event.b(), flags)).div_ceil(2);
            penalties += row.penalty;
        }
        row.put(&mut rows[usize::from(place)]);
    }
    penalties
}

//! Worse conduct: the changes of demand 3, as functions on the bytes of a file of either version.

use attachment_h::{Component, Kind, Market};

use crate::case::{
    CELL_BYTES, EVENT_HEAD_BYTES, LARGEST_FILE, PAST_BYTES, Past, Section, put_u32, section_place,
    u16_at, u32_at, version_of,
};
use crate::generator::{bid_limits, past_day};
use crate::random::Random;

/// One change of demand 3.
#[derive(Clone, Copy, Debug, PartialEq, Eq)]
pub enum Change {
    /// Writes a higher a (component 8: a lower) into one hour cell of a kind 1, 2 or 4 event.
    Hour {
        /// The event's place in the file.
        event: usize,
        /// The hour.
        hour: usize,
        /// The new a, as its 32 bits stand in the file.
        a: u32,
    },
    /// Puts one past entry before, between or after the others.
    PastEntry {
        /// Its place among the entries afterwards.
        place: usize,
        /// The entry.
        entry: Past,
    },
}

/// Whether `new` is a worse a than `old` in an event of this kind and component: "higher" is
/// unsigned in kinds 1 and 2 and signed in kind 4, and a lower one in component 8.
pub fn is_worse(kind: u8, component: u8, old: u32, new: u32) -> bool {
    match kind {
        1 | 2 => new > old,
        4 if component == 8 => new.cast_signed() < old.cast_signed(),
        4 => new.cast_signed() > old.cast_signed(),
        _ => false,
    }
}

/// The file after a change, or None if the change isn't one of demand 3 against what stands there.
///
/// The file's pairs have to follow on, and its sections to have whole records.
pub fn apply(file: &[u8], change: &Change) -> Option<Vec<u8>> {
    match *change {
        Change::Hour { event, hour, a } => write_worse_hour(file, event, hour, a),
        Change::PastEntry { place, entry } => add_past_entry(file, place, &entry.to_bytes()),
    }
}

/// The file after a list of changes, each against what the ones before it left; None if one isn't of demand 3.
pub fn apply_all(file: &[u8], list: &[Change]) -> Option<Vec<u8>> {
    let made = |file: Vec<u8>, change| apply(&file, change);
    list.iter().try_fold(file.to_vec(), made)
}

/// The file with a worse a in one hour cell.
pub fn write_worse_hour(file: &[u8], event: usize, hour: usize, a: u32) -> Option<Vec<u8>> {
    let record = event_offset(file, event)?;
    let cell = cell_offset(record, hour)?;
    if !is_worse(file[record], file[record + 6], u32_at(file, cell), a) {
        return None;
    }
    let mut changed = file.to_vec();
    put_u32(&mut changed, cell, a);
    Some(changed)
}

/// The file with one past entry more, "which adds 12 to the past length and the events offset".
pub fn add_past_entry(file: &[u8], place: usize, entry: &[u8]) -> Option<Vec<u8>> {
    let (offset, length) = section_place(file, 2);
    if place > length / PAST_BYTES || entry.len() != PAST_BYTES {
        return None;
    }
    let at = offset + PAST_BYTES * place;
    let mut changed = [&file[..at], entry, &file[at..]].concat();
    let past_length = u32_at(file, 24);
    let events_offset = u32_at(file, 28);
    put_u32(&mut changed, 24, past_length + 12);
    put_u32(&mut changed, 28, events_offset + 12);
    Some(changed)
}

/// How many records a section has, and the offset of one of them.
fn records(file: &[u8], section: Section) -> (usize, impl Fn(usize) -> usize) {
    let (offset, length) = section_place(file, section as usize);
    let width = section.width(version_of(file));
    (length / width, move |record| offset + width * record)
}

fn event_offset(file: &[u8], event: usize) -> Option<usize> {
    let (events, offset) = records(file, Section::Events);
    (event < events).then(|| offset(event))
}

fn cell_offset(record: usize, hour: usize) -> Option<usize> {
    (hour < 24).then(|| record + EVENT_HEAD_BYTES + CELL_BYTES * hour)
}

/// A random change against what stands in the file; None if there is no room for the one drawn.
///
/// Most changes leave an accepted file accepted; a few make a fault, which then stays.
pub fn random_change(file: &[u8], random: &mut Random) -> Option<Change> {
    let (events, _) = records(file, Section::Events);
    if events == 0 || random.chance(1, 4) {
        return random_entry(file, random);
    }
    let event = random.below(events);
    let hour = random.below(24);
    let record = event_offset(file, event)?;
    let old = u32_at(file, cell_offset(record, hour)?);
    let (kind, component) = (file[record], file[record + 6]);
    let beyond = random.chance(1, 200);
    let a = match kind {
        1 | 2 => {
            let unit = Section::Events.unit_number(version_of(file), &file[record..]);
            let capability = capability_of(file, unit)?;
            if beyond {
                random.pick(&[capability + 1, u32::MAX])
            } else {
                let step = match random.below(4) {
                    0 => 1,
                    1 => random.between(1, 600),
                    2 => random.between(1, 50_000),
                    // To one of the fixed lines, or next to it.
                    _ => random.pick(&[500, 501, 1_000, 1_001, 2_000, 2_001]) - i64::from(old),
                };
                (i64::from(old) + step).min(i64::from(capability)).max(0) as u32
            }
        }
        4 => {
            let (low, high) = bid_limits(Component(component));
            let old = i64::from(old.cast_signed());
            let step = match random.below(4) {
                0 => 1,
                1 => random.between(1, 400),
                2 => random.between(1, 20_000),
                _ => random.between(1, 1_000_000_000),
            };
            let new = if component == 8 {
                old - step
            } else {
                old + step
            };
            let new = if beyond {
                new.clamp(i64::from(i32::MIN), i64::from(i32::MAX))
            } else {
                new.clamp(low, high)
            };
            (new as i32).cast_unsigned()
        }
        _ => return random_entry(file, random),
    };
    is_worse(kind, component, old, a).then_some(Change::Hour { event, hour, a })
}

fn capability_of(file: &[u8], unit: u32) -> Option<u32> {
    let (units, offset) = records(file, Section::Units);
    let version = version_of(file);
    (0..units)
        .map(offset)
        .find(|&record| Section::Units.unit_number(version, &file[record..]) == unit)
        .map(|record| u32_at(file, record + 8))
}

/// A past entry of an event's group, in or near its windows.
fn random_entry(file: &[u8], random: &mut Random) -> Option<Change> {
    let (entries, _) = records(file, Section::Past);
    let (units, unit_offset) = records(file, Section::Units);
    let (events, event_offset) = records(file, Section::Events);
    // Seldom one entry too many, which is a fault.
    if (entries >= 256 || file.len() + PAST_BYTES > LARGEST_FILE) && !random.chance(1, 20) {
        return None;
    }
    let (day, market) = if events == 0 {
        (0, 0)
    } else {
        let record = event_offset(random.below(events));
        (u32_at(file, record + 8), file[record + 1])
    };
    let group = if units == 0 || random.chance(1, 20) {
        random.between(0, 65_535) as u16
    } else {
        u16_at(file, unit_offset(random.below(units)) + 2)
    };
    let kind = if random.chance(1, 100) {
        Kind::DISPATCH
    } else {
        random.pick(&[Kind::WITHHELD, Kind::FUEL])
    };
    let market = Market(if random.chance(1, 3) {
        1 - market.min(1)
    } else {
        market
    });
    let entry = Past::of_day(group, kind, market, past_day(random, day));
    Some(Change::PastEntry {
        place: random.below(entries + 1),
        entry,
    })
}

/// A random list of up to `most` changes, each applied to the file that the last one left.
pub fn random_changes(file: &[u8], most: usize, random: &mut Random) -> (Vec<Change>, Vec<u8>) {
    let mut changes = Vec::new();
    let mut changed = file.to_vec();
    for _ in 0..random.below(most + 1) {
        if let Some(change) = random_change(&changed, random)
            && let Some(next) = apply(&changed, &change)
        {
            changes.push(change);
            changed = next;
        }
    }
    (changes, changed)
}

//! Faults of events, 10 to 14, and of the rows, 15.

use attachment_h::Component;

use super::places::*;
use super::{Fault, fault};
use crate::case::{ROW_BYTES, Section, version_of};
use crate::generator::bid_limits;

/// The faults of events and rows that a case of either version can have.
pub const FAULTS_OF_EVENTS: &[Fault] = &[
    fault(10, "kind 0 or 5", |input, random| {
        let event = record(input, Section::Events, random)?;
        put_byte(input, event, random.pick(&[0, 5, 255]))
    }),
    fault(10, "market 2", |input, random| {
        let event = record(input, Section::Events, random)?;
        put_byte(input, event + 1, random.pick(&[2, 255]))
    }),
    fault(10, "a Day-Ahead dispatch", |input, random| {
        let event = event_of(input, &[2], random)?;
        put_byte(input, event + 1, 0)
    }),
    fault(10, "a component where there is none", |input, random| {
        let event = event_of(input, &[1, 2, 3], random)?;
        put_byte(input, event + 6, random.pick(&[1, 8, 9]))
    }),
    fault(10, "component 9 of an event", |input, random| {
        let event = event_of(input, &[4], random)?;
        put_byte(input, event + 6, random.pick(&[9, 255]))
    }),
    fault(10, "impact 2", |input, random| {
        let event = record(input, Section::Events, random)?;
        put_byte(input, event + 7, random.pick(&[2, 255]))
    }),
    fault(10, "impact 1 of a kind without it", |input, random| {
        let event = event_of(input, &[3, 4], random)?;
        put_byte(input, event + 7, 1)
    }),
    fault(10, "day 1,000,001", |input, random| {
        let event = record(input, Section::Events, random)?;
        put_word(input, event + 8, random.pick(&[1_000_001, u32::MAX]))
    }),
    fault(10, "a P bit past hour 23", |input, random| {
        let event = record(input, Section::Events, random)?;
        put_byte(input, event + 15, 1 << random.below(8))
    }),
    fault(10, "a Q bit past hour 23", |input, random| {
        let event = event_of(input, &[4], random)?;
        put_byte(input, event + 19, 1 << random.below(8))
    }),
    fault(10, "Q or R of a kind without them", |input, random| {
        let event = event_of(input, &[1, 2], random)?;
        put_byte(input, event + random.between(16, 23) as usize, 1)
    }),
    fault(10, "Q over its limit", |input, random| {
        let event = event_of(input, &[3], random)?;
        put_word(input, event + 16, over(random, 1_000_000_000))
    }),
    fault(10, "R over its limit", |input, random| {
        let event = event_of(input, &[3], random)?;
        put_word(input, event + 20, over(random, 1_000_000_000))
    }),
    fault(10, "a Real-Time TCC change", |input, random| {
        let events = events(input, |record| record[0] == 3 && record[1] == 1);
        let event = *events.get(random.below(events.len().max(1)))?;
        put_word(input, event + 20, random.pick(&[1, u32::MAX]))
    }),
    fault(10, "minimum run hours 25", |input, random| {
        let event = event_of(input, &[4], random)?;
        put_word(input, event + 20, random.pick(&[25, u32::MAX]))
    }),
    fault(10, "fuel energy 50,001", |input, random| {
        let cell = event_of(input, &[3], random)? + any_cell(random);
        put_word(input, cell, random.pick(&[50_001, u32::MAX]))
    }),
    fault(10, "a price over its limit", |input, random| {
        let cell = event_of(input, &[1, 3, 4], random)? + any_cell(random);
        put_word(input, cell + 4, over(random, 1_000_000))
    }),
    fault(10, "added revenue 100,000,001", |input, random| {
        let cell = event_of(input, &[2], random)? + any_cell(random);
        put_word(input, cell + 4, random.pick(&[100_000_001, u32::MAX]))
    }),
    fault(10, "m of a kind without it", |input, random| {
        let cell = event_of(input, &[1, 2, 3], random)? + any_cell(random);
        put_byte(input, cell + random.between(8, 11) as usize, 1)
    }),
    fault(10, "m 50,001", |input, random| {
        let cell = event_of(input, &[4], random)? + any_cell(random);
        put_word(input, cell + 8, random.pick(&[50_001, u32::MAX]))
    }),
    fault(10, "a bid over its limit", |input, random| {
        let event = event_of(input, &[4], random)?;
        let (_, high) = bid_limits(Component(input.file[event + 6]));
        let bid = random.pick(&[high as u32 + 1, i32::MAX as u32]);
        put_word(input, event + any_cell(random), bid)
    }),
    fault(10, "a bid under its limit", |input, random| {
        let event = event_of(input, &[4], random)?;
        let (low, _) = bid_limits(Component(input.file[event + 6]));
        let bid = random.pick(&[low as i32 - 1, i32::MIN]);
        put_word(input, event + any_cell(random), bid.cast_unsigned())
    }),
    fault(11, "the same event twice", |input, random| {
        let event = record_before_another(input, Section::Events, random)?;
        let bytes = width(input, Section::Events);
        input.file.copy_within(event..event + bytes, event + bytes);
        Some(())
    }),
    fault(11, "events out of order", |input, random| {
        swap_with_next(input, Section::Events, random)
    }),
    fault(11, "an event again at the end", |input, random| {
        let event = record(input, Section::Events, random)?;
        let bytes = width(input, Section::Events);
        room(input, bytes)?;
        if place(input, Section::Events).1 >= Section::Events.most() * bytes {
            return None;
        }
        let copy = input.file[event..event + bytes].to_vec();
        edit(input, Section::Events, |bytes| bytes.extend(copy))
    }),
    fault(12, "an event of an unlisted unit", |input, random| {
        // Above all units, in the last event of a day, kind and market, the order still stands.
        let number = unlisted_above(input)?;
        let event = last_of_a_run(input, random)?;
        put_number(input, Section::Events, event, number)
    }),
    fault(13, "one above the capability", |input, random| {
        let (event, capability) = event_with_capability(input, random)?;
        put_word(input, event + any_cell(random), capability + 1)
    }),
    fault(13, "far above the capability", |input, random| {
        let (event, _) = event_with_capability(input, random)?;
        let value = random.pick(&[u32::MAX, 1 << 31, 50_001, 429_496_730]);
        put_word(input, event + any_cell(random), value)
    }),
    fault(14, "a bid without reference", |input, random| {
        let event = event_of(input, &[4], random)?;
        let (version, wanted) = (version_of(&input.file), wanted_by(input, event));
        edit(input, Section::References, |bytes| {
            remove_entry(version, bytes, wanted)
        })?
    }),
    fault(14, "no references", |input, random| {
        event_of(input, &[4], random)?;
        edit(input, Section::References, Vec::clear)
    }),
    fault(14, "a bid without correct reference", |input, random| {
        let events = events(input, |record| {
            record[0] == 4 && matches!(record[6], 0 | 1 | 3)
        });
        let event = *events.get(random.below(events.len().max(1)))?;
        let (version, wanted) = (version_of(&input.file), wanted_by(input, event));
        // The correction has to stay non-empty, or the case's own references are read.
        let mut correction = input.correction.clone();
        if correction.is_empty() {
            correction = own_references(input);
        }
        remove_entry(version, &mut correction, wanted)?;
        if correction.is_empty() {
            return None;
        }
        input.correction = correction;
        Some(())
    }),
    fault(15, "rows one byte short", |input, _| {
        let needed = rows_needed(input);
        input.rows_len = needed.checked_sub(1)?;
        Some(())
    }),
    fault(15, "rows one row short", |input, _| {
        let needed = rows_needed(input);
        input.rows_len = needed.checked_sub(ROW_BYTES)?;
        Some(())
    }),
    fault(15, "no rows", |input, _| {
        if rows_needed(input) == 0 {
            return None;
        }
        input.rows_len = 0;
        Some(())
    }),
];

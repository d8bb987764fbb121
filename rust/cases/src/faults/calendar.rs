//! Faults of the days and capability periods of past entries and events, 18 and 19.

use attachment_h::Kind;

use super::places::*;
use super::{Fault, fault};
use crate::calendar::{FIRST_DAY_BEYOND, first_of_period};
use crate::case::{Input, Section, put_u16, u16_at};
use crate::random::Random;

/// The faults of days and periods that a case of either version can have.
pub const FAULTS_OF_THE_CALENDAR: &[Fault] = &[
    fault(18, "a withheld past entry of 2100", |input, random| {
        let past = past_of(input, Kind::WITHHELD, random)?;
        put_word(input, past + 8, day_beyond(random))
    }),
    fault(18, "a fuel past entry of 2100", |input, random| {
        let past = past_of(input, Kind::FUEL, random)?;
        put_word(input, past + 8, day_beyond(random))
    }),
    fault(18, "an event of 2100", |input, random| {
        let event = record(input, Section::Events, random)?;
        put_word(input, event + 8, day_beyond(random))
    }),
    fault(
        19,
        "the period of a withheld past entry",
        |input, random| {
            let past = past_of(input, Kind::WITHHELD, random)?;
            put_other_period(input, past + 4, random)
        },
    ),
    fault(19, "the period of a fuel past entry", |input, random| {
        let past = past_of(input, Kind::FUEL, random)?;
        put_other_period(input, past + 4, random)
    }),
    fault(19, "the period of an event", |input, random| {
        let event = record(input, Section::Events, random)?;
        put_other_period(input, event + 4, random)
    }),
    fault(19, "a past day next to its period", |input, random| {
        let past = record(input, Section::Past, random)?;
        let day = day_next_to(u16_at(&input.file, past + 4), random);
        put_word(input, past + 8, day)
    }),
    fault(19, "an event's day next to its period", |input, random| {
        let event = record(input, Section::Events, random)?;
        let day = day_next_to(u16_at(&input.file, event + 4), random);
        put_word(input, event + 8, day)
    }),
];

/// The offset of a past entry of this kind.
fn past_of(input: &Input, kind: Kind, random: &mut Random) -> Option<usize> {
    let of_the_kind = |past: &usize| input.file[past + 2] == kind.0;
    let places: Vec<usize> = records(input, Section::Past).filter(of_the_kind).collect();
    places.get(random.below(places.len().max(1))).copied()
}

/// A day that no case may name, and that a field of days holds.
fn day_beyond(random: &mut Random) -> u32 {
    random.pick(&[
        FIRST_DAY_BEYOND,
        FIRST_DAY_BEYOND + 1,
        65_536,
        999_999,
        1_000_000,
    ])
}

/// Another period: one more or less, one whose lower byte is the same, or the highest.
fn put_other_period(input: &mut Input, at: usize, random: &mut Random) -> Option<()> {
    let period = u16_at(&input.file, at);
    let others = [
        period + 1,
        period.wrapping_sub(1),
        period + 2,
        period + 256,
        u16::MAX,
    ];
    put_u16(&mut input.file, at, random.pick(&others));
    Some(())
}

/// The last day before a period, or the first after it.
fn day_next_to(period: u16, random: &mut Random) -> u32 {
    let (before, after) = (
        first_of_period(period).checked_sub(1),
        first_of_period(period + 1),
    );
    match before {
        Some(before) if after >= FIRST_DAY_BEYOND || random.chance(1, 2) => before,
        _ => after,
    }
}

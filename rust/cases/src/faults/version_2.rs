//! Faults that only a case of version 2 can have.

use attachment_h::layout::HIGHEST_UNIT_NUMBER;

use super::places::*;
use super::{Fault, fault};
use crate::case::{Input, Section, Version, version_of};
use crate::random::Random;

/// The faults that only a case of version 2 can have.
pub const FAULTS_OF_VERSION_2: &[Fault] = &[
    fault(17, "the old field of a unit", |input, random| {
        old_field(input, Section::Units, random)
    }),
    fault(17, "the old field of a reference", |input, random| {
        old_field(input, Section::References, random)
    }),
    fault(17, "the old field of an event", |input, random| {
        old_field(input, Section::Events, random)
    }),
    fault(
        17,
        "the number of a unit over its limit",
        |input, random| high_number(input, Section::Units, random),
    ),
    fault(
        17,
        "the number of a reference over its limit",
        |input, random| high_number(input, Section::References, random),
    ),
    fault(
        17,
        "the number of an event over its limit",
        |input, random| high_number(input, Section::Events, random),
    ),
    fault(17, "the numbers in the old fields too", |input, _| {
        of_version_2(input)?;
        let mut written = false;
        for section in [Section::Units, Section::References, Section::Events] {
            for at in records(input, section).collect::<Vec<_>>() {
                let low = number(input, section, at) as u16;
                put_old(&mut input.file[at..], section, low);
                written |= low != 0;
            }
        }
        written.then_some(())
    }),
    fault(
        7,
        "a reference of an unlisted unit with a listed one's low bytes",
        |input, _| {
            let last = records(input, Section::References).last()?;
            let unlisted = unlisted_alike(input, number(input, Section::References, last))?;
            put_number(input, Section::References, last, unlisted)
        },
    ),
    fault(8, "the old field in the correction", |input, random| {
        of_version_2(input)?;
        let entry = correction_entry(input, random)?;
        let value = random.pick(&[1, 256, 65_535]);
        put_old(&mut input.correction[entry..], Section::References, value);
        Some(())
    }),
    fault(
        8,
        "a number in the correction over its limit",
        |input, random| {
            of_version_2(input)?;
            let entry = correction_entry(input, random)?;
            put_correct_number(input, entry, over_the_highest(random))
        },
    ),
    fault(
        8,
        "the correction of an unlisted unit with a listed one's low bytes",
        |input, _| {
            of_version_2(input)?;
            ensure_correction(input);
            let last = input
                .correction
                .len()
                .checked_sub(width(input, Section::References))?;
            let number = Section::References.unit_number(Version::Two, &input.correction[last..]);
            put_correct_number(input, last, unlisted_alike(input, number)?)
        },
    ),
    fault(
        12,
        "an event of an unlisted unit with a listed one's low bytes",
        |input, random| {
            // A higher number in the last event of a day, kind and market: the order still stands.
            let event = last_of_a_run(input, random)?;
            let unlisted = unlisted_alike(input, number(input, Section::Events, event))?;
            put_number(input, Section::Events, event, unlisted)
        },
    ),
];

/// Some, if the case is of version 2.
fn of_version_2(input: &Input) -> Option<()> {
    (version_of(&input.file) == Version::Two).then_some(())
}

/// Writes the two bytes in which version 1 has the number.
fn put_old(record: &mut [u8], section: Section, value: u16) {
    section.put_unit_number(Version::One, record, value.into());
}

/// Something in the old field of a record: the lower half of its number, or anything.
fn old_field(input: &mut Input, section: Section, random: &mut Random) -> Option<()> {
    of_version_2(input)?;
    let at = record(input, section, random)?;
    let low = number(input, section, at) as u16;
    let value = random.pick(&[1, 255, 256, 65_535, low.max(1)]);
    put_old(&mut input.file[at..], section, value);
    Some(())
}

/// A number over its limit in a record.
fn high_number(input: &mut Input, section: Section, random: &mut Random) -> Option<()> {
    of_version_2(input)?;
    let at = record(input, section, random)?;
    put_number(input, section, at, over_the_highest(random))
}

/// A number that no unit can have: one over the highest, or one whose lower bytes would be in range.
fn over_the_highest(random: &mut Random) -> u32 {
    random.pick(&[
        HIGHEST_UNIT_NUMBER + 1,
        1 << 20,
        (1 << 24) + 12,
        1 << 31,
        u32::MAX,
    ])
}

/// A number above this one, of no unit, with the same two low bytes.
fn unlisted_alike(input: &Input, number: u32) -> Option<u32> {
    of_version_2(input)?;
    (1..16)
        .map(|step| number + (step << 16))
        .find(|&alike| alike <= HIGHEST_UNIT_NUMBER && !is_listed(input, alike))
}

//! Faults of the header and of the lengths of the file and its sections, 1 to 5.

use super::places::*;
use super::{Fault, fault};
use crate::case::{HEADER_BYTES, LARGEST_FILE, Section, put_u16, put_u32, u32_at, version_of};

/// The faults of the layout that a case of either version can have.
pub const FAULTS_OF_THE_LAYOUT: &[Fault] = &[
    fault(1, "35 bytes", |input, _| cut(input, 35)),
    fault(1, "no bytes", |input, _| cut(input, 0)),
    fault(1, "fewer than 36 bytes", |input, random| {
        cut(input, random.below(HEADER_BYTES))
    }),
    fault(1, "65,001 bytes", |input, _| {
        input.file.resize(LARGEST_FILE + 1, 0);
        Some(())
    }),
    fault(2, "version 9", |input, _| put_byte(input, 0, 9)),
    fault(2, "version 0", |input, _| put_byte(input, 0, 0)),
    fault(2, "version 3", |input, _| put_byte(input, 0, 3)),
    fault(2, "a version above 256", |input, _| put_byte(input, 1, 1)),
    fault(3, "count 3", |input, _| put_byte(input, 2, 3)),
    fault(3, "count 5", |input, _| put_byte(input, 2, 5)),
    fault(3, "count 260", |input, _| put_byte(input, 3, 1)),
    fault(4, "first offset 40", |input, _| put_byte(input, 4, 40)),
    fault(4, "first offset 0", |input, _| put_byte(input, 4, 0)),
    fault(4, "an offset one off", |input, random| {
        let pair = 4 + 8 * random.below(4);
        let step = random.pick(&[1, u32::MAX]);
        let offset = u32_at(&input.file, pair);
        put_u32(&mut input.file, pair, offset.wrapping_add(step));
        Some(())
    }),
    fault(4, "a length one record more", |input, random| {
        let section = random.pick(&Section::ALL);
        let (_, length) = place(input, section);
        let longer = length + width(input, section);
        put_word(input, 8 + 8 * section as usize, longer as u32)
    }),
    fault(4, "a byte after the last section", |input, _| {
        room(input, 1)?;
        input.file.push(0);
        Some(())
    }),
    fault(4, "the last byte missing", |input, _| {
        let length = input.file.len();
        (length > HEADER_BYTES).then(|| input.file.truncate(length - 1))
    }),
    fault(4, "two pairs in each other's place", |input, _| {
        let (first, second) = (place(input, Section::Units), place(input, Section::Events));
        if first == second {
            return None;
        }
        for (pair, (offset, length)) in [(4, second), (28, first)] {
            put_u32(&mut input.file, pair, offset as u32);
            put_u32(&mut input.file, pair + 4, length as u32);
        }
        Some(())
    }),
    fault(4, "a sum past 2^32", |input, _| {
        // 36 + length wraps to 0, from where the references reach their end.
        let (offset, length) = place(input, Section::References);
        put_u32(&mut input.file, 8, 0_u32.wrapping_sub(36));
        put_u32(&mut input.file, 12, 0);
        put_u32(&mut input.file, 16, (offset + length) as u32);
        Some(())
    }),
    fault(5, "a section one byte longer", |input, random| {
        let section = random.pick(&Section::ALL);
        room(input, 1)?;
        edit(input, section, |bytes| bytes.push(0))
    }),
    fault(5, "a section one byte shorter", |input, random| {
        let section = random.pick(&Section::ALL);
        edit(input, section, |bytes| bytes.pop())?.map(|_| ())
    }),
    fault(5, "units of 25 bytes", |input, _| {
        edit(input, Section::Units, |bytes| bytes.resize(25, 0))
    }),
    fault(5, "the widths of the other version", |input, _| {
        let version = other(version_of(&input.file));
        let whole = |section: Section| {
            let (_, length) = place(input, section);
            length.is_multiple_of(section.width(version))
        };
        if Section::ALL.into_iter().all(whole) {
            return None;
        }
        put_u16(&mut input.file, 0, version.number());
        Some(())
    }),
    fault(5, "one unit too many", |input, _| {
        too_many(input, Section::Units)
    }),
    fault(5, "one reference too many", |input, _| {
        too_many(input, Section::References)
    }),
    fault(5, "one past entry too many", |input, _| {
        too_many(input, Section::Past)
    }),
    fault(5, "one event too many", |input, _| {
        too_many(input, Section::Events)
    }),
];

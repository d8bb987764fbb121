//! Faults of units, references, corrections and past entries, 6 to 9.

use attachment_h::Component;

use super::places::*;
use super::{Fault, fault};
use crate::case::{Section, put_u16, put_u32, version_of};
use crate::generator::reference_limit;

/// The faults of units, references, corrections and past entries that a case of either version can have.
pub const FAULTS_OF_RECORDS: &[Fault] = &[
    fault(6, "area 2", |input, random| {
        let unit = record(input, Section::Units, random)?;
        put_byte(input, unit + 4, 2)
    }),
    fault(6, "a spare byte of a unit", |input, random| {
        let unit = record(input, Section::Units, random)?;
        put_byte(input, unit + random.pick(&[5, 6, 7, 22, 23]), 1)
    }),
    fault(6, "capability 0", |input, random| {
        let unit = record(input, Section::Units, random)?;
        put_word(input, unit + 8, 0)
    }),
    fault(6, "capability 50,001", |input, random| {
        let unit = record(input, Section::Units, random)?;
        put_word(input, unit + 8, random.pick(&[50_001, u32::MAX]))
    }),
    fault(6, "response rate 50,001", |input, random| {
        let unit = record(input, Section::Units, random)?;
        put_word(input, unit + 12, random.pick(&[50_001, u32::MAX]))
    }),
    fault(6, "Average Price 1,000,001", |input, random| {
        let unit = record(input, Section::Units, random)?;
        put_word(input, unit + 16, random.pick(&[1_000_001, u32::MAX]))
    }),
    fault(6, "Constrained Hours 8,785", |input, random| {
        let unit = record(input, Section::Units, random)?;
        put_u16(&mut input.file, unit + 20, random.pick(&[8_785, 65_535]));
        Some(())
    }),
    fault(6, "the same unit twice", |input, random| {
        let unit = record_before_another(input, Section::Units, random)?;
        let number = number(input, Section::Units, unit);
        let next = unit + width(input, Section::Units);
        put_number(input, Section::Units, next, number)
    }),
    fault(6, "units out of order", |input, random| {
        swap_with_next(input, Section::Units, random)
    }),
    fault(7, "component 9", |input, random| {
        let reference = record(input, Section::References, random)?;
        put_byte(input, reference + 2, random.pick(&[9, 255]))
    }),
    fault(7, "the spare byte of a reference", |input, random| {
        let reference = record(input, Section::References, random)?;
        put_byte(input, reference + 3, 1)
    }),
    fault(7, "a reference over its limit", |input, random| {
        let reference = record(input, Section::References, random)?;
        let limit = reference_limit(Component(input.file[reference + 2])) as u32;
        put_word(input, reference + 4, random.pick(&[limit + 1, u32::MAX]))
    }),
    fault(7, "a reference twice", |input, random| {
        let reference = record_before_another(input, Section::References, random)?;
        let next = reference + width(input, Section::References);
        put_byte(input, next + 2, input.file[reference + 2])?;
        let number = number(input, Section::References, reference);
        put_number(input, Section::References, next, number)
    }),
    fault(7, "references out of order", |input, random| {
        swap_with_next(input, Section::References, random)
    }),
    fault(7, "a reference of an unlisted unit", |input, _| {
        let number = unlisted_above(input)?;
        let (offset, length) = place(input, Section::References);
        let last = (offset + length).checked_sub(width(input, Section::References))?;
        (last >= offset).then(|| put_number(input, Section::References, last, number))?
    }),
    fault(8, "a correction of 7 bytes", |input, _| {
        input.correction = vec![0; 7];
        Some(())
    }),
    fault(8, "a correction one byte longer", |input, _| {
        ensure_correction(input);
        input.correction.push(0);
        Some(())
    }),
    fault(
        8,
        "a correction of the other version's width",
        |input, _| {
            ensure_correction(input);
            let (own, other) = (
                width(input, Section::References),
                Section::References.width(other(version_of(&input.file))),
            );
            let count = input.correction.len() / own;
            let odd = (1..=count)
                .rev()
                .find(|count| !(count * other).is_multiple_of(own))?;
            input.correction.resize(odd * other, 0);
            Some(())
        },
    ),
    fault(8, "a correction of 257 records", |input, _| {
        ensure_correction(input);
        let length = 257 * width(input, Section::References);
        input.correction.resize(length, 0);
        Some(())
    }),
    fault(8, "component 9 in the correction", |input, random| {
        let entry = correction_entry(input, random)?;
        input.correction[entry + 2] = random.pick(&[9, 255]);
        Some(())
    }),
    fault(8, "the spare byte in the correction", |input, random| {
        let entry = correction_entry(input, random)?;
        input.correction[entry + 3] = 1;
        Some(())
    }),
    fault(8, "a correct reference over its limit", |input, random| {
        let entry = correction_entry(input, random)?;
        let limit = reference_limit(Component(input.correction[entry + 2])) as u32;
        let value = random.pick(&[limit + 1, u32::MAX]);
        put_u32(&mut input.correction, entry + 4, value);
        Some(())
    }),
    fault(8, "the correction out of order", |input, random| {
        let entry = correction_entry(input, random)?;
        let copy = input.correction[entry..entry + width(input, Section::References)].to_vec();
        input.correction.extend(copy);
        Some(())
    }),
    fault(8, "the correction of an unlisted unit", |input, _| {
        let number = unlisted_above(input)?;
        ensure_correction(input);
        let last = input
            .correction
            .len()
            .checked_sub(width(input, Section::References))?;
        put_correct_number(input, last, number)
    }),
    fault(9, "past kind 2", |input, random| {
        let past = record(input, Section::Past, random)?;
        put_byte(input, past + 2, random.pick(&[0, 2, 4, 255]))
    }),
    fault(9, "past market 2", |input, random| {
        let past = record(input, Section::Past, random)?;
        put_byte(input, past + 3, random.pick(&[2, 255]))
    }),
    fault(9, "a spare byte of a past entry", |input, random| {
        let past = record(input, Section::Past, random)?;
        put_byte(input, past + random.pick(&[6, 7]), 1)
    }),
    fault(9, "past day 1,000,001", |input, random| {
        let past = record(input, Section::Past, random)?;
        put_word(input, past + 8, random.pick(&[1_000_001, u32::MAX]))
    }),
];

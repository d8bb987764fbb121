//! The fields of units, references, corrections and past entries.

use cases::case::{Section, Version, correction_bytes, sections_of};
use cases::{Case, Input, Reference};

use crate::{
    Checks, PERIODS, at_most, days, place, records, records_in, reference, references, unit,
};

#[test]
fn fields_of_a_unit() {
    let mut checks = Checks::default();
    let input = records();
    // Units 5, 20 and 22 have no reference: the first, one between and the last.
    for record in [0, 3, 4] {
        let at = place(&input, Section::Units, record);
        checks.field(&input, at + 2, 2, &[(0, 0), (65_535, 0)], "group");
        let area = [(0, 0), (1, 0), (2, 6), (128, 6), (255, 6)];
        checks.field(&input, at + 4, 1, &area, "area");
        for spare in [5, 6, 7, 22, 23] {
            checks.zero(&input, at + spare, 1, 6, "spare byte of a unit");
        }
        checks.field(&input, at + 8, 4, &[(0, 6), (1, 0)], "capability");
        checks.field(&input, at + 8, 4, &at_most(50_000, 6)[1..], "capability");
        checks.field(&input, at + 12, 4, &at_most(50_000, 6), "response rate");
        checks.field(&input, at + 16, 4, &at_most(1_000_000, 6), "Average Price");
        let hours = [(0, 0), (8_784, 0), (8_785, 6), (65_535, 6)];
        checks.field(&input, at + 20, 2, &hours, "Constrained Hours");
    }
    // Strictly rising.
    let first = place(&input, Section::Units, 0);
    let rising = [(0, 0), (5, 0), (11, 0), (12, 6), (13, 6), (65_535, 6)];
    checks.field(&input, first, 2, &rising, "unit number, first");
    let between = place(&input, Section::Units, 3);
    let rising = [
        (0, 6),
        (12, 6),
        (13, 6),
        (14, 0),
        (21, 0),
        (22, 6),
        (23, 6),
        (276, 6),
    ];
    checks.field(&input, between, 2, &rising, "unit number, between");
    let last = place(&input, Section::Units, 4);
    let rising = [(0, 6), (19, 6), (20, 6), (21, 0), (256, 0), (65_535, 0)];
    checks.field(&input, last, 2, &rising, "unit number, last");
    checks.done(490, "fields of a unit");
}

/// A field of a reference record: record, offset and width, and values with their numbers.
type ReferenceField = (usize, usize, usize, Vec<(i64, u8)>);

/// What a reference record breaks; `number` is 7 or 8.
fn reference_fields(number: u8) -> Vec<ReferenceField> {
    let mut fields = Vec::new();
    for record in 0..18 {
        let limit = if record % 9 < 3 {
            1_000_000
        } else {
            1_000_000_000
        };
        fields.push((record, 4, 4, at_most(limit, number).to_vec()));
        let spare = (0..8).map(|bit| (1 << bit, number));
        fields.push((record, 3, 1, [(0, 0)].into_iter().chain(spare).collect()));
        let component = (record % 9) as i64;
        let mut components = vec![(component, 0), (9, number), (255, number)];
        if component > 0 {
            // As the one before, or lower.
            components.extend([(component - 1, number), (0, number)]);
        }
        if component < 8 {
            // As the one after.
            components.push((component + 1, number));
        }
        fields.push((record, 2, 1, components));
    }
    // The first of unit 12 may be of a lower listed unit, the last of 13 of a higher one.
    let first = vec![(5, 0), (4, number), (6, number), (13, number), (0, number)];
    fields.push((0, 0, 2, first));
    let last = vec![
        (13, 0),
        (20, 0),
        (22, 0),
        (14, number),
        (21, number),
        (23, number),
        (12, number),
        (12 + 256, number),
        (65_535, number),
    ];
    fields.push((17, 0, 2, last));
    // (12, 8) before (13, 0): the unit comes first.
    fields.push((8, 0, 2, vec![(12, 0), (13, number), (20, number)]));
    fields.push((9, 0, 2, vec![(13, 0), (12, number), (5, number)]));
    fields
}

#[test]
fn fields_of_a_reference() {
    let mut checks = Checks::default();
    let input = records();
    for (record, offset, bytes, values) in reference_fields(7) {
        let at = place(&input, Section::References, record) + offset;
        checks.field(&input, at, bytes, &values, "a reference");
    }
    checks.done(784, "fields of a reference");
}

#[test]
fn fields_of_the_correction() {
    let mut checks = Checks::default();
    let mut input = records();
    input.correction = sections_of(&input.file)[1].clone();
    for (record, offset, bytes, values) in reference_fields(8) {
        let at = 8 * record + offset;
        checks.correction_field(&input, at, bytes, &values, "a reference");
    }
    checks.done(784, "fields of the correction");
}

#[test]
fn length_of_the_correction() {
    let mut checks = Checks::default();
    for (version, width) in [(Version::One, 8), (Version::Two, 12)] {
        let mut input = records_in(version);
        let whole = sections_of(&input.file)[1].clone();
        for length in 0..=whole.len() {
            input.correction = whole[..length].to_vec();
            let number = if length.is_multiple_of(width) { 0 } else { 8 };
            checks.expect(&input, number, "length of the correction");
        }
        let units = Case {
            version,
            units: (0..64).map(unit).collect(),
            ..Case::default()
        };
        let entries: Vec<Reference> = (0..257)
            .map(|place| reference(place / 9, (place % 9) as u8))
            .collect();
        checks.expect(&Input::new(&units, &entries[..256]), 0, "256 corrections");
        checks.expect(&Input::new(&units, &entries), 8, "257 corrections");
        let mut input = Input::new(&units, &entries[..256]);
        input.correction.push(0);
        checks.expect(&input, 8, "256 corrections and a byte");
    }
    checks.done(380, "length of the correction");
}

#[test]
fn the_correction_of_the_other_version() {
    // One record has no whole width of the other version; three of version 1 have two, and two of version 2 three.
    let mut checks = Checks::default();
    for (version, other) in [(Version::One, Version::Two), (Version::Two, Version::One)] {
        let mut input = records_in(version);
        for count in 1..=18 {
            let entries = references();
            input.correction = correction_bytes(other, &entries[..count]);
            let what = format!("{count} corrections of the other version");
            checks.expect(&input, 8, &what);
        }
    }
    checks.done(36, "the correction of the other version");
}

#[test]
fn fields_of_a_past_entry() {
    let mut checks = Checks::default();
    let input = records();
    for record in 0..3 {
        let at = place(&input, Section::Past, record);
        checks.field(&input, at, 2, &[(0, 0), (7, 0), (65_535, 0)], "group");
        let kind = [
            (1, 0),
            (3, 0),
            (0, 9),
            (2, 9),
            (4, 9),
            (129, 9),
            (131, 9),
            (255, 9),
        ];
        checks.field(&input, at + 2, 1, &kind, "kind of a past entry");
        let market = [(0, 0), (1, 0), (2, 9), (128, 9), (255, 9)];
        checks.field(&input, at + 3, 1, &market, "market of a past entry");
        checks.field(&input, at + 4, 2, &PERIODS, "period of a past entry");
        for spare in [6, 7] {
            checks.zero(&input, at + spare, 1, 9, "spare byte of a past entry");
        }
        checks.field(&input, at + 8, 4, &days(9), "day of a past entry");
    }
    checks.done(324, "fields of a past entry");
}

//! The header, and the lengths of the file and of its sections, in both versions.

use cases::case::{ROW_BYTES, Version, file_in, put_u32, section_place, u32_at};
use cases::generator::case;
use cases::{Case, Event, Input, Market, Random, Reference, Size, Wanted};

use crate::{Checks, past, records_in, reference, unit};

/// Bytes of a record of each section.
fn widths(version: Version) -> [usize; 4] {
    match version {
        Version::One => [24, 8, 12, 312],
        Version::Two => [28, 12, 12, 316],
    }
}

#[test]
fn length_of_the_file() {
    let mut checks = Checks::default();
    for version in Version::ALL {
        let empty = Input::new(&Case::default().in_version(version), &[]);
        assert_eq!(empty.file.len(), 36);
        checks.expect(&empty, 0, "36 bytes");
        for length in 0..36 {
            let mut cut = empty.clone();
            cut.file.truncate(length);
            checks.expect(&cut, 1, "fewer than 36 bytes");
        }
        let wanted = Wanted::of(Size::Full).in_version(version);
        let full = case(&mut Random::new(1), wanted).input();
        assert_eq!(full.file.len(), 65_000);
        checks.expect(&full, 0, "65,000 bytes");
        let mut longer = full.clone();
        for length in [65_001, 65_002, 65_536, 131_072, 1_000_000] {
            longer.file.resize(length, 0);
            checks.expect(&longer, 1, "more than 65,000 bytes");
        }
    }
    checks.done(86, "length of the file");
}

#[test]
fn version_count_and_pairs() {
    let mut checks = Checks::default();
    // The number of the other version makes the widths wrong.
    for (version, one_and_two) in [
        (Version::One, [(1, 0), (2, 5)]),
        (Version::Two, [(1, 5), (2, 0)]),
    ] {
        let input = records_in(version);
        checks.field(&input, 0, 2, &one_and_two, "version");
        let neither = [0, 3, 4, 9, 255, 256, 257, 258, 512, 513, 65_535];
        let neither = neither.map(|number| (number, 2));
        checks.field(&input, 0, 2, &neither, "version");
        let count = [(4, 0), (3, 3), (5, 3), (0, 3), (260, 3), (65_535, 3)];
        checks.field(&input, 2, 2, &count, "section count");
        for pair in 0..8 {
            let at = 4 + 4 * pair;
            let good = i64::from(u32_at(&input.file, at));
            let mut values = vec![(good, 0), (good + 1, 4), (good + (1 << 31), 4)];
            values.push(((good - 1) & 0xFFFF_FFFF, 4));
            values.push((if good == 0 { 24 } else { 0 }, 4));
            checks.field(&input, at, 4, &values, "a pair");
        }
        let mut longer = input.clone();
        longer.file.push(0);
        checks.expect(&longer, 4, "a byte after the last section");
        sections_elsewhere(&mut checks, version);
    }
    checks.done(120, "version, count and pairs");
}

/// Pairs that lead to sections of whole records, and do not follow on.
fn sections_elsewhere(checks: &mut Checks, version: Version) {
    // 36 + (2^32 − 36) is not 0, from where the next section would reach its end.
    let mut wrapped = Input::new(&Case::default().in_version(version), &[]);
    put_u32(&mut wrapped.file, 8, 0_u32.wrapping_sub(36));
    put_u32(&mut wrapped.file, 12, 0);
    put_u32(&mut wrapped.file, 16, 36);
    checks.expect(&wrapped, 4, "a sum past 2^32");
    // The sections in another order of the file.
    let mut swapped = records_in(version);
    let (units, references) = (
        section_place(&swapped.file, 0),
        section_place(&swapped.file, 1),
    );
    for (pair, (offset, length)) in [(4, references), (12, units)] {
        put_u32(&mut swapped.file, pair, offset as u32);
        put_u32(&mut swapped.file, pair + 4, length as u32);
    }
    checks.expect(&swapped, 4, "units after references");
}

/// Cases with as many records as a section may have and one more, each with its number.
fn numbers_of_records() -> [(Case, u8); 8] {
    let units = |count: u32| Case {
        units: (0..count).map(unit).collect(),
        ..Case::default()
    };
    let many_references = |count: u32| -> Vec<Reference> {
        (0..count)
            .map(|place| reference(place / 9, (place % 9) as u8))
            .collect()
    };
    let with_references = |count: u32| Case {
        references: many_references(count),
        ..units(64)
    };
    let with_past = |count: usize| Case {
        past: vec![past(1); count],
        ..Case::default()
    };
    let with_events = |count: u32| Case {
        events: (0..count)
            .map(|day| Event::withheld(day, Market::DAY_AHEAD, 0, &[]))
            .collect(),
        ..units(1)
    };
    [
        (units(64), 0),
        (units(65), 5),
        (with_references(256), 0),
        (with_references(257), 5),
        (with_past(256), 0),
        (with_past(257), 5),
        (with_events(200), 0),
        (with_events(201), 5),
    ]
}

#[test]
fn lengths_of_the_sections() {
    let mut checks = Checks::default();
    for version in Version::ALL {
        for (case, number) in numbers_of_records() {
            let input = Input::new(&case.in_version(version), &[]);
            checks.expect(&input, number, "number of records");
        }
        // Every length that is no multiple, around one and two records.
        for (section, record) in widths(version).into_iter().enumerate() {
            for length in (1..record).chain(record + 1..2 * record) {
                let mut sections = [const { Vec::new() }; 4];
                sections[section] = vec![0; length];
                let input = Input {
                    file: file_in(version, &sections),
                    correction: Vec::new(),
                    rows_len: ROW_BYTES,
                };
                checks.expect(&input, 5, "no multiple");
            }
        }
    }
    checks.done(1_400, "lengths of the sections");
}

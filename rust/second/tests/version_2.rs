//! Version 2 of the case file: unit numbers of six digits, 17, and the width of a correction.
//!
//! That a version 1 file and its version 2 copy give the same is asked of every case of readings,
//! pencil and refusals, by `common::number` and `common::rows_of`.

mod common;

use cases::case::ROW_BYTES;
use cases::{Case, Event, Market};
use common::version_2::{
    EVENTS, PAST, REFERENCES, UNITS, Version2, WIDTHS, copy_of, file_of, sections_of,
};
use common::{correction_of, number_of, past_withheld, reference, unit};
use second::{Outcome, listing, penalty_working, refusal, settle};

/// The sections whose records name a unit.
const NUMBERED: [usize; 3] = [UNITS, REFERENCES, EVENTS];

/// Two units of one group, with a record of both in every section that names units; 13 is the last
/// record of each.
fn two_units() -> Case {
    Case {
        units: vec![unit(12, 7), unit(13, 7)],
        references: vec![reference(12, 0, 2_000), reference(13, 0, 3_000)],
        past: vec![past_withheld(7, Market::DAY_AHEAD, 44)],
        events: vec![
            Event::withheld(8_000, Market::DAY_AHEAD, 12, &[(0, 501, 4_000)]),
            Event::bids(8_000, Market::DAY_AHEAD, 12, 0, 0, &[(0, 9_000, 0, 0)]),
            Event::bids(8_000, Market::DAY_AHEAD, 13, 0, 0, &[(0, 9_000, 0, 0)]),
        ],
        ..Case::default()
    }
}

/// The two units in version 2, under these numbers.
fn numbered(first: u32, second: u32) -> Version2 {
    Version2::of(&two_units().to_bytes(), |unit| {
        if unit == 12 { first } else { second }
    })
}

/// The number that the file breaks, with enough rows.
fn number(file: &Version2, correction: &[u8]) -> u8 {
    refusal(&file.to_bytes(), correction, ROW_BYTES * 200)
}

/// A version 2 reference of component 0, with an old field.
fn record(old: u16, value: u32, unit: u32) -> Vec<u8> {
    let mut bytes = old.to_le_bytes().to_vec();
    bytes.extend([0, 0]);
    bytes.extend(value.to_le_bytes());
    bytes.extend(unit.to_le_bytes());
    bytes
}

#[test]
fn numbers_above_65_535_are_settled_and_listed() {
    // 2 × 501 × 4,000 / 20 of the withheld event, which is the second instance. 9,000 is over
    // 4 × 2,000 and not over 4 × 3,000.
    assert_eq!(
        listing(&numbered(65_536, 765_432).to_bytes()),
        "8000 1 65536 0 0 1 0 2 200400 0\n\
         8000 4 65536 0 0 1 1 0 0 0\n\
         8000 4 765432 0 0 0 0 0 0 0\n\
         total 200400 0\n"
    );
}

#[test]
fn units_that_agree_in_their_lower_two_bytes_are_two_units() {
    // 131,084 is 2 × 65,536 + 12. Each has the reference of its own number: 2,000 and 3,000.
    let file = numbered(12, 131_084);
    assert_eq!(
        listing(&file.to_bytes()),
        "8000 1 12 0 0 1 0 2 200400 0\n\
         8000 4 12 0 0 1 1 0 0 0\n\
         8000 4 131084 0 0 0 0 0 0 0\n\
         total 200400 0\n"
    );
    // Each needs its own correct reference too.
    let (lower, higher) = (record(0, 1, 12), record(0, 1, 131_084));
    assert_eq!(number(&file, &[&lower[..], &higher].concat()), 0);
    assert_eq!([number(&file, &lower), number(&file, &higher)], [14, 14]);
}

#[test]
fn time_increases_are_added_by_the_whole_number() {
    // 120 each of components 4, 5 and 6: three of one unit add to 360 and pass, four would fail.
    let case = Case {
        units: vec![unit(12, 7), unit(13, 7)],
        references: [12, 13]
            .iter()
            .flat_map(|&unit| (4..=6).map(move |component| reference(unit, component, 0)))
            .collect(),
        events: [12, 13]
            .iter()
            .flat_map(|&unit| {
                (4..=6).map(move |component| {
                    let cells = [(0, 120, 0, 0)];
                    Event::bids(1, Market::REAL_TIME, unit, component, 0, &cells)
                })
            })
            .collect(),
        ..Case::default()
    };
    let numbers = |unit| if unit == 12 { 12 } else { 65_548 };
    let file = Version2::of(&case.to_bytes(), numbers).to_bytes();
    let mut rows = vec![0; 6 * ROW_BYTES];
    let outcome = settle(&file, &[], &mut rows);
    assert!(matches!(outcome, Outcome::Settled { rows: 6, .. }));
    assert!(rows.chunks_exact(ROW_BYTES).all(|row| row[..4] == [0; 4]));
    // One more in a single component flags the three of its unit alone.
    let more = Version2::of(&case.to_bytes(), numbers).with_byte(EVENTS, 5, 24, 121);
    settle(&more.to_bytes(), &[], &mut rows);
    let flags: Vec<u8> = rows.chunks_exact(ROW_BYTES).map(|row| row[0]).collect();
    assert_eq!(flags, [0, 0, 0, 1, 1, 1]);
}

#[test]
fn orders_go_by_the_whole_number() {
    let rising = numbered(65_535, 65_536);
    assert_eq!(number(&rising, &[]), 0);
    // Units.
    assert_eq!(number(&numbered(65_536, 65_535), &[]), 6);
    assert_eq!(number(&numbered(65_536, 65_536), &[]), 6);
    // References: the number before the component.
    let references = |first, second| rising.with_references(first, second);
    assert_eq!(number(&references((65_535, 1), (65_536, 0)), &[]), 14);
    assert_eq!(number(&references((65_536, 0), (65_535, 1)), &[]), 7);
    assert_eq!(number(&references((65_536, 0), (65_536, 0)), &[]), 7);
    // A correction, as references.
    let correction = |first, second| {
        let file = rising.with_references(first, second);
        number(&rising, &file.sections[REFERENCES])
    };
    assert_eq!(correction((65_535, 0), (65_536, 0)), 0);
    assert_eq!(correction((65_536, 0), (65_535, 0)), 8);
    // Events: the two of kind 4.
    let events = |first, second| {
        let file = rising.with_number(EVENTS, 1, first);
        number(&file.with_number(EVENTS, 2, second), &[])
    };
    assert_eq!(events(65_535, 65_536), 0);
    assert_eq!(events(65_536, 65_535), 11);
    assert_eq!(events(65_536, 65_536), 11);
}

#[test]
fn units_are_listed_by_the_whole_number() {
    let file = numbered(12, 65_549);
    // 13 is the lower half of 65,549 and no unit.
    assert_eq!(number(&file.with_number(REFERENCES, 1, 13), &[]), 7);
    assert_eq!(number(&file.with_number(EVENTS, 2, 13), &[]), 12);
    assert_eq!(number(&file, &record(0, 1, 13)), 8);
}

#[test]
fn the_lowest_unit_of_a_fuel_day_is_by_the_whole_number() {
    let case = Case {
        units: vec![unit(12, 7), unit(13, 7)],
        events: vec![
            Event::fuel(9, Market::DAY_AHEAD, 12, (0, 0, 0), &[]),
            Event::fuel(9, Market::DAY_AHEAD, 13, (0, 500_000, 0), &[]),
        ],
        ..Case::default()
    };
    // 65,535 is the lower one, although its lower two bytes are the higher.
    let numbers = |unit| if unit == 12 { 65_535 } else { 65_536 };
    let file = Version2::of(&case.to_bytes(), numbers).to_bytes();
    assert_eq!(
        listing(&file),
        "9 3 65535 0 0 0 0 2 500000 0\n\
         9 3 65536 0 0 0 0 0 0 0\n\
         total 500000 0\n"
    );
    for event in [0, 1] {
        let row = penalty_working(&file, &[], event).map(|working| working.row);
        assert_eq!(row, Ok(0));
    }
}

#[test]
fn seventeen_in_each_section() {
    let last = numbered(0, 999_999);
    assert_eq!(number(&last, &[]), 0);
    for section in NUMBERED {
        for place in [0, 1] {
            for old in [1, 255, 256, 65_535] {
                let file = last.with_old_field(section, place, old);
                assert_eq!(number(&file, &[]), 17, "{section} {place} {old}");
            }
            for six_digits in [1_000_000, 1_000_001, 1 << 24, u32::MAX] {
                let file = last.with_number(section, place, six_digits);
                assert_eq!(number(&file, &[]), 17, "{section} {place} {six_digits}");
            }
        }
        // In range and unlisted it is another number, if any.
        let unlisted = last.with_number(section, 1, 999_998);
        let expected = [7, 7, 0, 12][section];
        assert_eq!(number(&unlisted, &[]), expected, "{section}");
    }
    // A number in its old field alone is no number either.
    let file = last.with_old_field(UNITS, 1, 13).with_number(UNITS, 1, 0);
    assert_eq!(number(&file, &[]), 17);
}

#[test]
fn seventeen_comes_after_5_and_before_6() {
    for section in NUMBERED {
        let file = numbered(12, 70_000).with_old_field(section, 1, 1);
        assert_eq!(number(&file, &[]), 17);
        // 1 to 5 come first, 5 of every section.
        let bytes = file.to_bytes();
        let with = |at: usize, value: u8| {
            let mut changed = bytes.clone();
            changed[at] = value;
            refusal(&changed, &[], 1_000)
        };
        assert_eq!([with(0, 3), with(2, 3), with(4, 40)], [2, 3, 4]);
        for longer in [UNITS, REFERENCES, PAST, EVENTS] {
            let mut file = file.clone();
            file.sections[longer].push(0);
            assert_eq!(number(&file, &[]), 5);
        }
        // 6, 7, 9, 10, 11 and 13 come later, in whichever section; so do 8 and 15.
        assert_eq!(number(&file.with_byte(UNITS, 0, 4, 2), &[]), 17);
        assert_eq!(number(&file.with_byte(REFERENCES, 0, 2, 9), &[]), 17);
        assert_eq!(number(&file.with_byte(PAST, 0, 2, 2), &[]), 17);
        assert_eq!(number(&file.with_byte(EVENTS, 0, 1, 2), &[]), 17);
        assert_eq!(number(&file.with_byte(EVENTS, 2, 0, 5), &[]), 17);
        assert_eq!(number(&file.with_byte(EVENTS, 0, 8, 1), &[]), 17);
        assert_eq!(number(&file.with_byte(EVENTS, 0, 26, 1), &[]), 17);
        assert_eq!(number(&file, &[0; 7]), 17);
        assert_eq!(refusal(&file.to_bytes(), &[], 0), 17);
    }
    // Without it these are the numbers of version 1.
    let file = numbered(12, 70_000);
    assert_eq!(number(&file.with_byte(UNITS, 0, 4, 2), &[]), 6);
    assert_eq!(number(&file.with_byte(REFERENCES, 0, 2, 9), &[]), 7);
    assert_eq!(number(&file.with_byte(PAST, 0, 2, 2), &[]), 9);
    assert_eq!(number(&file.with_byte(EVENTS, 0, 1, 2), &[]), 10);
    assert_eq!(number(&file.with_byte(EVENTS, 2, 0, 5), &[]), 10);
    assert_eq!(number(&file.with_byte(EVENTS, 1, 8, 65), &[]), 11);
    assert_eq!(number(&file.with_byte(EVENTS, 0, 26, 1), &[]), 13);
    assert_eq!(number(&file, &[0; 7]), 8);
    assert_eq!(refusal(&file.to_bytes(), &[], 0), 15);
}

#[test]
fn the_same_fault_in_a_correction_is_8() {
    let file = numbered(12, 999_999);
    let correction = |old, unit| [record(0, 1, 12), record(old, 1, unit)].concat();
    assert_eq!(number(&file, &correction(0, 999_999)), 0);
    for (old, unit) in [
        (1, 999_999),
        (256, 999_999),
        (65_535, 999_999),
        (0, 1_000_000),
    ] {
        assert_eq!(number(&file, &correction(old, unit)), 8, "{old} {unit}");
    }
    // After 7 and before 9.
    let bad = correction(1, 999_999);
    assert_eq!(number(&file.with_byte(REFERENCES, 0, 2, 9), &bad), 7);
    assert_eq!(number(&file.with_byte(PAST, 0, 2, 2), &bad), 8);
}

#[test]
fn a_correction_has_the_width_of_its_case() {
    let case = two_units();
    let narrow = correction_of(&case.references);
    let wide = copy_of(&case.to_bytes());
    let wide_records = sections_of(&wide)[REFERENCES].clone();
    let number = |file: &[u8], correction: &[u8]| refusal(file, correction, 1_000);
    assert_eq!(number(&case.to_bytes(), &narrow), 0);
    assert_eq!(number(&wide, &wide_records), 0);
    // 8 n bytes that are no multiple of 12, and 12 n that are none of 8.
    for records in [1, 2, 4, 5, 256] {
        assert_eq!(number(&wide, &vec![0; 8 * records]), 8, "{records}");
    }
    for records in [1, 3, 5, 255] {
        assert_eq!(number(&case.to_bytes(), &vec![0; 12 * records]), 8);
    }
    // 24 bytes are three records or two: the case decides, and the other's are faults.
    let three = [(12, 0), (12, 1), (13, 0)].map(|(unit, component)| reference(unit, component, 1));
    let three = correction_of(&three);
    assert_eq!((three.len(), wide_records.len()), (24, 24));
    assert_eq!(number(&case.to_bytes(), &three), 0);
    assert_eq!(number(&wide, &three), 8);
    assert_eq!(number(&case.to_bytes(), &wide_records), 8);
}

#[test]
fn two_is_neither_version() {
    let (first, second) = (two_units().to_bytes(), numbered(12, 13).to_bytes());
    let with_version = |file: &[u8], version: u16| {
        let mut file = file.to_vec();
        file[..2].copy_from_slice(&version.to_le_bytes());
        refusal(&file, &[], 1_000)
    };
    assert_eq!(with_version(&first, 1), 0);
    assert_eq!(with_version(&second, 2), 0);
    for version in [0, 3, 9, 256, 257, 258, 512, 65_535] {
        assert_eq!(with_version(&first, version), 2, "{version}");
        assert_eq!(with_version(&second, version), 2, "{version}");
    }
    // The records of one version are no multiple of the other's.
    assert_eq!(with_version(&first, 2), 5);
    assert_eq!(with_version(&second, 1), 5);
    // With no records a file is of either.
    let empty = Case::default().to_bytes();
    assert_eq!([with_version(&empty, 1), with_version(&empty, 2)], [0, 0]);
}

#[test]
fn widths_and_most_records() {
    for (section, most) in [(UNITS, 64), (REFERENCES, 256), (PAST, 256), (EVENTS, 200)] {
        let of_length = |bytes: usize| {
            let mut sections: [Vec<u8>; 4] = Default::default();
            sections[section] = vec![0; bytes];
            refusal(&file_of(2, &sections), &[], usize::MAX)
        };
        let width = WIDTHS[section];
        for bytes in [1, width - 4, width - 1, width + 1, 2 * width - 4] {
            assert_eq!(of_length(bytes), 5, "{section} {bytes}");
        }
        // The records are all 0, which is another number.
        let fault = [6, 7, 9, 10][section];
        assert_eq!(of_length(width), fault);
        assert_eq!(of_length(width * most), fault);
        assert_eq!(of_length(width * (most + 1)), 5);
    }
}

#[test]
fn never_17_in_version_1() {
    let file = two_units().to_bytes();
    let mut seen = [0; 256];
    for at in 0..file.len() {
        for value in [0, 1, 2, 15, 16, 128, 255] {
            let mut changed = file.clone();
            changed[at] = value;
            for correction in [&record(0, 1, 12)[..8], &[]] {
                seen[usize::from(number_of(&changed, correction, 1_000))] += 1;
            }
        }
    }
    assert_eq!(seen[17], 0);
    assert!([6, 7, 12, 18, 19].iter().all(|&number| seen[number] > 0));
    // 65,535 is as good as any.
    let last = Case {
        units: vec![unit(65_535, 7)],
        references: vec![reference(65_535, 0, 1)],
        events: vec![Event::withheld(0, Market::DAY_AHEAD, 65_535, &[])],
        ..Case::default()
    };
    assert_eq!(common::number(&last, &[]), 0);
}

#[test]
fn a_copy_may_be_too_long() {
    let case = |events: u32| Case {
        units: (0..64).map(|number| unit(number, 0)).collect(),
        references: (0..64).map(|number| reference(number, 0, 1)).collect(),
        events: (0..events)
            .map(|day| Event::withheld(day, Market::DAY_AHEAD, 0, &[]))
            .collect(),
        ..Case::default()
    };
    // 36 + 64 × (24 + 8) + 200 × 312 = 64,484, and the copy has 4 × 328 more.
    let file = case(200).to_bytes();
    let copy = copy_of(&file);
    assert_eq!((file.len(), copy.len()), (64_484, 65_796));
    let rows = 200 * ROW_BYTES;
    assert_eq!(refusal(&file, &[], rows), 0);
    assert_eq!(refusal(&copy, &[], rows), 1);
    assert_eq!(common::number(&case(197), &[]), 0);
}

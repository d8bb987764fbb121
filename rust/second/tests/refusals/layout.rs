//! The lengths of the file and of its sections, and where they stand (docs/RULES.md, L1 to L5).

use cases::case::{put_u32, section_place};
use cases::{Case, Event, Market};
use second::listing;

use crate::common::{number, past_withheld, reference, unit};
use crate::{full, of_bytes};

#[test]
fn lengths_of_files() {
    assert_eq!(of_bytes(&[]), 1);
    // 36 zero bytes have version 0.
    assert_eq!(of_bytes(&[0; 36]), 2);
    assert_eq!(of_bytes(&[0; 65_000]), 2);
    assert_eq!(of_bytes(&[0; 65_001]), 1);
    // The listing sees the whole input: with only 65,000 bytes of it this would be 4.
    let mut file = full().to_bytes();
    file.resize(65_001, 0);
    assert_eq!(listing(&file), "refused 1\n");
    file.resize(65_000, 0);
    assert_eq!(listing(&file), "refused 4\n");
}

#[test]
fn sums_of_offsets_and_lengths_do_not_wrap() {
    // 36 + (2^32 − 36) would be 0 in 32 bits, and 0 + 36 the file's end.
    let mut file = Case::default().to_bytes();
    put_u32(&mut file, 8, 0u32.wrapping_sub(36));
    put_u32(&mut file, 12, 0);
    put_u32(&mut file, 16, 36);
    assert_eq!(of_bytes(&file), 4);
    // The same at the last pair.
    let mut file = Case::default().to_bytes();
    put_u32(&mut file, 32, u32::MAX);
    assert_eq!(of_bytes(&file), 4);
    // A byte after the last section, and a section that overlaps the next.
    let mut file = full().to_bytes();
    file.push(0);
    assert_eq!(of_bytes(&file), 4);
    let mut file = full().to_bytes();
    let (_, length) = section_place(&file, 0);
    put_u32(&mut file, 8, length as u32 + 24);
    assert_eq!(of_bytes(&file), 4);
}

#[test]
fn most_records() {
    let units = |count: u32| Case {
        units: (0..count).map(|place| unit(place, 0)).collect(),
        ..Case::default()
    };
    assert_eq!((number(&units(64), &[]), number(&units(65), &[])), (0, 5));
    let references = |count: u32| -> Vec<_> {
        (0..count)
            .map(|place| reference(place / 9, (place % 9) as u8, 1))
            .collect()
    };
    let with_references = |count: u32| Case {
        references: references(count),
        ..units(64)
    };
    assert_eq!(number(&with_references(256), &[]), 0);
    assert_eq!(number(&with_references(257), &[]), 5);
    assert_eq!(number(&units(64), &references(256)), 0);
    assert_eq!(number(&units(64), &references(257)), 8);
    let past = |count: usize| Case {
        past: vec![past_withheld(3, Market::DAY_AHEAD, 0); count],
        ..Case::default()
    };
    assert_eq!((number(&past(256), &[]), number(&past(257), &[])), (0, 5));
    let events = |count: u32| Case {
        events: (0..count)
            .map(|day| Event::withheld(day, Market::DAY_AHEAD, 0, &[]))
            .collect(),
        ..units(1)
    };
    assert_eq!(
        (number(&events(200), &[]), number(&events(201), &[])),
        (0, 5)
    );
}

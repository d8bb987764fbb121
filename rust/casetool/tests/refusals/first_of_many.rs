//! Cases that are broken in many places: the first record is named, with its field.

use std::ops::Range;

use attachment_h::ROWS_LENGTH;
use attachment_h::layout::{Section, Version, put_u16, put_u32};
use cases::Random;
use cases::case::{Input, file_in, section_place, sections_of, version_of};
use cases::generator::Size;
use casetool::place::Part;

use crate::support::in_turn;
use crate::{every_kind, found, names_its_record, width};

/// The first place of a case that is broken everywhere: its number, its record and its field.
fn first_of_many(input: &Input) -> (u8, usize, usize) {
    let (number, place) = found(input).expect("a refusal");
    names_its_record(&place);
    (number, place.record, place.at)
}

/// Every unit, reference, past entry or event broken, or every record of the correction.
fn broken_everywhere(input: &Input) {
    let version = version_of(&input.file);
    for (number, section, byte) in [(6, 0, 4), (7, 1, 3), (9, 2, 2), (10, 3, 1)] {
        let mut bad = input.clone();
        let (offset, length) = section_place(&bad.file, section);
        for record in (offset..offset + length).step_by(width(version, section)) {
            bad.file[record + byte] = 2;
        }
        assert_eq!(first_of_many(&bad), (number, 0, byte));
    }
    let mut bad = input.clone();
    bad.correction = sections_of(&input.file)[1].clone();
    for record in bad.correction.chunks_exact_mut(width(version, 1)) {
        record[3] = 2;
    }
    assert_eq!(first_of_many(&bad), (8, 0, 3));
}

#[test]
fn the_first_of_many_is_named() {
    let mut random = Random::new(714);
    let mut cases = 0;
    for place in 0..100 {
        let input = every_kind(in_turn(place), &mut random, Size::Small).input();
        for input in input.with_copy() {
            broken_everywhere(&input);
            cases += 1;
        }
    }
    println!("{cases} cases broken everywhere");
    assert_eq!(cases, 150);
}

/// A case with every record of some sections changed.
fn with_every_record(
    input: &Input,
    sections: &[Section],
    change: impl Fn(Section, &mut [u8]),
) -> Input {
    let mut bad = input.clone();
    let version = version_of(&bad.file);
    for &section in sections {
        let (offset, length) = section_place(&bad.file, section as usize);
        let records = &mut bad.file[offset..offset + length];
        for record in records.chunks_exact_mut(width(version, section as usize)) {
            change(section, record);
        }
    }
    bad
}

#[test]
fn the_first_of_many_numbers_is_named() {
    // 17: an old number, or a number above 999,999, in every record of some sections.
    let mut random = Random::new(716);
    let version = Version::Two;
    let broken = |input: &Input, sections: &[Section], old: bool| {
        with_every_record(input, sections, |section, record| match old {
            true => section.put_unit_number(Version::One, record, 65_535),
            false => section.put_unit_number(version, record, 1_000_000),
        })
    };
    use Section::{Events, References, Units};
    for _ in 0..50 {
        let input = every_kind(version, &mut random, Size::Small).input();
        for (sections, old_at, number_at) in [
            (&[Units, References, Events][..], 0, 24),
            (&[References, Events], 0, 8),
            (&[Events], 2, 312),
        ] {
            for (old, at) in [(true, old_at), (false, number_at)] {
                let bad = broken(&input, sections, old);
                let (number, place) = found(&bad).expect("a refusal");
                assert_eq!(place.part, Part::Section(sections[0]));
                assert_eq!((number, place.record, place.at), (17, 0, at));
                names_its_record(&place);
            }
        }
    }
}

/// 18 and 19 in every past entry and event, in every event alone, and 18 in the last event after 19 in all others.
fn days_and_periods(input: &Input) {
    use Section::{Events, Past};
    let records = |section: Section| {
        let version = version_of(&input.file);
        section_place(&input.file, section as usize).1 / width(version, section as usize)
    };
    let named = |bad: &Input, expected: (u8, Section, usize, usize)| {
        let (number, place) = found(bad).expect("a refusal");
        let (expected_number, section, record, at) = expected;
        assert_eq!(place.part, Part::Section(section));
        assert_eq!(
            (number, place.record, place.at),
            (expected_number, record, at)
        );
        names_its_record(&place);
    };
    let late = |_: Section, record: &mut [u8]| put_u32(record, 8, 36_525);
    let other_period = |_: Section, record: &mut [u8]| put_u16(record, 4, 201);
    for sections in [&[Past, Events][..], &[Events]] {
        let first = match records(sections[0]) {
            0 => Events,
            _ => sections[0],
        };
        named(&with_every_record(input, sections, late), (18, first, 0, 8));
        let mut bad = with_every_record(input, sections, other_period);
        named(&bad, (19, first, 0, 4));
        let last = bad.file.len() - width(version_of(&bad.file), Events as usize);
        late(Events, &mut bad.file[last..]);
        named(&bad, (18, Events, records(Events) - 1, 8));
    }
}

#[test]
fn the_first_of_many_days_and_periods_is_named() {
    let mut random = Random::new(718);
    let (mut cases, mut with_past) = (0, 0);
    for place in 0..50 {
        let input = every_kind(in_turn(place), &mut random, Size::Small).input();
        for input in input.with_copy() {
            days_and_periods(&input);
            cases += 1;
            with_past += usize::from(section_place(&input.file, Section::Past as usize).1 > 0);
        }
    }
    println!("{cases} cases, {with_past} with past entries");
    assert!(cases == 75 && with_past > 30);
}

/// The sections of a case, and its version.
struct Whole {
    version: Version,
    sections: [Vec<u8>; 4],
}

impl Whole {
    fn of(input: &Input) -> Whole {
        Whole {
            version: version_of(&input.file),
            sections: sections_of(&input.file),
        }
    }

    fn events(&self) -> Vec<&[u8]> {
        let events = self.sections[3].chunks_exact(width(self.version, 3));
        events.collect()
    }

    /// Where the number of an event's unit stands.
    fn number_of_event(&self) -> Range<usize> {
        match self.version {
            Version::One => 2..4,
            Version::Two => 312..316,
        }
    }

    /// The first place of the case with another section, or several, and a correction.
    fn first_with(&self, others: &[(Section, &[u8])], correction: &[u8]) -> (u8, usize, usize) {
        let mut sections = self.sections.clone();
        for (section, bytes) in others {
            sections[*section as usize] = bytes.to_vec();
        }
        first_of_many(&Input {
            file: file_in(self.version, &sections),
            correction: correction.to_vec(),
            rows_len: ROWS_LENGTH,
        })
    }
}

/// 11: all in falling order, so that the second is the first after a later one.
fn all_in_falling_order(whole: &Whole) {
    let records = whole.events();
    let falling: Vec<u8> = records.iter().rev().copied().flatten().copied().collect();
    let [one, other] = [records.len() - 1, records.len() - 2].map(|place| records[place]);
    let parts = [8..12, 0..1, 1..2, whole.number_of_event(), 6..7];
    let part = parts
        .into_iter()
        .find(|part| one[part.clone()] != other[part.clone()]);
    assert_eq!(
        whole.first_with(&[(Section::Events, &falling)], &[]),
        (11, 1, part.expect("a difference").start)
    );
}

/// 12: no units, and so no references that would need them.
fn without_units(whole: &Whole) {
    let nothing: [(Section, &[u8]); 2] = [(Section::Units, &[]), (Section::References, &[])];
    let at = whole.number_of_event().start;
    assert_eq!(whole.first_with(&nothing, &[]), (12, 0, at));
}

/// 13: every a above its capability from some hour on, in all events of kinds 1 and 2.
fn above_capability(whole: &Whole, hour: usize) {
    let mut above = whole.sections[3].clone();
    for event in above
        .chunks_exact_mut(width(whole.version, 3))
        .filter(|event| event[0] <= 2)
    {
        for cell in event[24..312].chunks_exact_mut(12).skip(hour) {
            cell[..4].copy_from_slice(&50_001_u32.to_le_bytes());
        }
    }
    let first = whole.events().iter().position(|event| event[0] <= 2);
    assert_eq!(
        whole.first_with(&[(Section::Events, &above)], &[]),
        (13, first.expect("an event of kind 1 or 2"), 24 + 12 * hour)
    );
}

/// 14: no references; then a correction of one reference that no event reads. Whether an event reads another.
fn without_references(whole: &Whole) -> bool {
    let (version, records) = (whole.version, whole.events());
    let first = records.iter().position(|event| event[0] == 4);
    assert_eq!(
        whole.first_with(&[(Section::References, &[])], &[]),
        (14, first.expect("a bid"), 6)
    );
    let mut unread = vec![0; width(version, 1)];
    unread[2] = 8;
    let number = Section::Units.unit_number(version, &whole.sections[0]);
    Section::References.put_unit_number(version, &mut unread, number);
    let reads = |event: &&[u8]| event[0] == 4 && matches!(event[6], 0 | 1 | 3);
    let first = records.iter().position(reads);
    if let Some(first) = first {
        assert_eq!(whole.first_with(&[], &unread), (14, first, 6));
    }
    first.is_some()
}

#[test]
fn the_first_of_many_events_is_named() {
    let mut random = Random::new(715);
    let (mut cases, mut without_correct) = (0, 0);
    for place in 0..100 {
        let input = every_kind(in_turn(place), &mut random, Size::Small).input();
        let hour = random.below(24);
        for input in input.with_copy() {
            let whole = Whole::of(&input);
            all_in_falling_order(&whole);
            without_units(&whole);
            above_capability(&whole, hour);
            without_correct += usize::from(without_references(&whole));
            cases += 1;
        }
    }
    println!("{cases} cases, {without_correct} without correct references");
    assert!(cases == 150 && without_correct > 30);
}

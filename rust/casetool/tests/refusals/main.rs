//! Every fault of `rust/cases`, in both versions: the number in the answer is the library's, and the place is where the
//! fault was put, as the bytes tell that differ from the good case.

mod first_of_many;
#[path = "../support/mod.rs"]
mod support;

use attachment_h::layout::{Section, Version};
use attachment_h::{ROWS_LENGTH, Refused, check};
use cases::Random;
use cases::case::{Input, section_place, sections_of, version_of};
use cases::faults::{CHECKED, Fault, faults_in};
use cases::generator::{Generated, Size, Wanted, any_case_in, case, random_bytes_in};
use casetool::place::refusal::Refusal;
use casetool::place::{Part, Place, find};
use support::in_turn;

/// Where the fields of a unit, a reference, a past entry and an event's head begin, with those of version 2: docs/FORMAT.md.
const FIELDS: [&[usize]; 4] = [
    &[0, 2, 4, 5, 6, 7, 8, 12, 16, 20, 22, 23, 24],
    &[0, 2, 3, 4, 8],
    &[0, 2, 3, 4, 6, 7, 8],
    &[0, 1, 2, 4, 6, 7, 8, 12, 16, 20],
];

/// Bytes of a record.
fn width(version: Version, section: usize) -> usize {
    match version {
        Version::One => [24, 8, 12, 312][section],
        Version::Two => [28, 12, 12, 316][section],
    }
}

/// The field in which a byte of a record stands.
fn field_at(section: usize, byte: usize) -> usize {
    if section == 3 && byte >= 24 {
        return byte / 4 * 4;
    }
    let begun = FIELDS[section].iter().filter(|&&at| at <= byte);
    *begun.max().expect("the first field")
}

/// Record and field of the first byte in which two sections differ.
fn first_change(
    version: Version,
    section: usize,
    good: &[u8],
    bad: &[u8],
) -> Option<(usize, usize)> {
    let byte = good.iter().zip(bad).position(|(good, bad)| good != bad)?;
    let bytes = width(version, section);
    Some((byte / bytes, field_at(section, byte % bytes)))
}

/// The section that a fault is in.
fn section_of(fault: &Fault, good: &Input, bad: &Input) -> Option<Section> {
    match fault.number {
        6 => Some(Section::Units),
        7 => Some(Section::References),
        9 => Some(Section::Past),
        10..=14 => Some(Section::Events),
        // The first that changed.
        17..=19 => {
            let (good, bad) = (sections_of(&good.file), sections_of(&bad.file));
            let mut sections = Section::ALL.into_iter();
            sections.find(|section| good[*section as usize] != bad[*section as usize])
        }
        _ => None,
    }
}

/// Where the fault is, if the bytes tell: the record, and the field where only one was changed.
fn expected(fault: &Fault, good: &Input, bad: &Input) -> (Part, Option<usize>, Option<usize>) {
    if fault.number == 8 {
        return expected_in_correction(fault, good, bad);
    }
    let Some(section) = section_of(fault, good, bad) else {
        let part = match fault.number {
            15 => Part::Rows,
            _ => Part::Header,
        };
        return (part, None, None);
    };
    let (part, place) = (Part::Section(section), section as usize);
    let version = version_of(&good.file);
    let (good, bad) = (
        &sections_of(&good.file)[place],
        &sections_of(&bad.file)[place],
    );
    let change = first_change(version, place, good, bad);
    let (record, field) =
        change.map_or((None, None), |(record, field)| (Some(record), Some(field)));
    match fault.name {
        // The later of the two that changed places; "twice" changes the later one alone.
        name if name.contains("out of order") => (part, record.map(|record| record + 1), None),
        name if name.contains("twice") => (part, record, None),
        "an event again at the end" => (part, Some(good.len() / width(version, place)), None),
        _ => match fault.number {
            14 => (part, None, Some(6)),
            18 => (part, record, Some(8)),
            // The period, where the day changed too.
            19 => (part, record, Some(4)),
            _ => (part, record, field),
        },
    }
}

fn expected_in_correction(
    fault: &Fault,
    good: &Input,
    bad: &Input,
) -> (Part, Option<usize>, Option<usize>) {
    let (version, own) = (version_of(&good.file), &sections_of(&good.file)[1]);
    let good = if good.correction.is_empty() {
        own
    } else {
        &good.correction
    };
    if fault.name == "the correction out of order" {
        return (Part::Correction, Some(good.len() / width(version, 1)), None);
    }
    if good.len() != bad.correction.len() {
        return (Part::Correction, Some(0), Some(0));
    }
    let (record, field) = first_change(version, 1, good, &bad.correction).expect("a change");
    (Part::Correction, Some(record), Some(field))
}

/// The two bytes, or four, of a unit's number in a reference or an event.
fn number_of(version: Version, section: usize, record: &[u8]) -> &[u8] {
    match (version, section) {
        (Version::One, 1) => &record[..2],
        (Version::One, _) => &record[2..4],
        (Version::Two, _) => &record[width(version, section) - 4..],
    }
}

/// The first event of kind 4 without its reference, looked for in another way than casetool does.
fn first_without_reference(input: &Input) -> usize {
    let version = version_of(&input.file);
    let references = &sections_of(&input.file)[1];
    let correct = if input.correction.is_empty() {
        references
    } else {
        &input.correction
    };
    let (offset, _) = section_place(&input.file, 3);
    let has = |section: &[u8], event: &[u8]| {
        let mut records = section.chunks_exact(width(version, 1));
        records.any(|record| {
            record[2] == event[6] && number_of(version, 1, record) == number_of(version, 3, event)
        })
    };
    input.file[offset..]
        .chunks_exact(width(version, 3))
        .position(|event| {
            let reads = [true, true, false, true].get(usize::from(event[6])) == Some(&true);
            event[0] == 4 && !(has(references, event) && (!reads || has(correct, event)))
        })
        .expect("an event without its reference")
}

/// A case with all kinds, so that most faults have a place.
fn every_kind(version: Version, random: &mut Random, size: Size) -> Generated {
    let wanted = Wanted {
        every_kind: true,
        ..Wanted::of(size).in_version(version)
    };
    case(random, wanted)
}

/// The place that casetool finds, with the number that the library gives.
fn found(input: &Input) -> Option<(u8, Place)> {
    let Err(Refused(number)) = check(&input.file, &input.correction, input.rows_len) else {
        return None;
    };
    let place = find(number, &input.file, &input.correction, input.rows_len);
    let place = place.unwrap_or_else(|| panic!("no place for {number}"));
    let refusal = Refusal::of(
        Refused(number),
        &input.file,
        &input.correction,
        input.rows_len,
    );
    let meaning = Refused(number).meaning();
    assert_ne!(meaning, Refused(0).meaning(), "{number}");
    let start = format!("refused {number}: {meaning}\n{}\n", place.sentence);
    assert!(refusal.to_string().starts_with(&start), "{refusal}");
    Some((number, place))
}

/// That the sentence names the record by the number by which people find it.
fn names_its_record(place: &Place) {
    let name = match place.part {
        Part::Header => "the ".to_string(),
        Part::Rows => "the rows buffer: ".to_string(),
        Part::Correction if place.sentence.starts_with("the correction: ") => return,
        Part::Correction => format!("correction, record {} (", place.record),
        Part::Section(Section::Events) => format!("event {} (", place.record),
        Part::Section(section) => format!("{}, record {} (", section.name(), place.record),
    };
    assert!(place.sentence.starts_with(&name), "{}", place.sentence);
}

/// Puts a fault into a case and looks whether its place is found, in its copy too; how many of record and field are
/// known of each, if the case has a place for it.
fn is_found(
    version: Version,
    fault: &Fault,
    size: Size,
    random: &mut Random,
) -> Option<Vec<usize>> {
    let good = every_kind(version, random, size).input();
    let bad = fault.put_into(&good, random)?;
    let both = good.with_copy().into_iter().zip(bad.with_copy());
    Some(both.map(|(good, bad)| known(fault, &good, &bad)).collect())
}

/// That the place of a fault is found; how many of record and field are known.
fn known(fault: &Fault, good: &Input, bad: &Input) -> usize {
    let name = fault.name;
    let (number, place) = found(bad).expect("a refusal");
    assert_eq!(number, fault.number, "{name}");
    let (part, mut record, field) = expected(fault, good, bad);
    if number == 14 {
        record = Some(first_without_reference(bad));
    }
    assert_eq!(place.part, part, "{name}: {}", place.sentence);
    names_its_record(&place);
    if let Some(record) = record {
        assert_eq!(place.record, record, "{name}: {}", place.sentence);
    }
    if let Some(field) = field {
        assert_eq!(place.at, field, "{name}: {}", place.sentence);
    }
    usize::from(record.is_some()) + usize::from(field.is_some())
}

#[test]
fn every_fault_has_its_place() {
    let mut random = Random::new(711);
    for version in Version::ALL {
        let (mut described, mut copies, mut located, mut faults) = (0, 0, 0, 0);
        for fault in faults_in(version) {
            let found = (0..60).filter_map(|round| {
                let size = match round {
                    0..=3 => Size::Medium,
                    4 => Size::Full,
                    _ => Size::Small,
                };
                is_found(version, fault, size, &mut random)
            });
            let found: Vec<Vec<usize>> = found.collect();
            assert!(!found.is_empty(), "no case for {}", fault.name);
            let every = found.concat();
            described += found.len();
            copies += every.len() - found.len();
            located += every.iter().filter(|&&known| known == 2).count();
            faults += 1;
        }
        println!(
            "{version:?}: {described} of {faults} faults described, {copies} copies, {located} with record and field"
        );
        assert_eq!(copies > 3_000, version == Version::One);
    }
}

#[test]
fn an_accepted_case_has_no_place() {
    let mut random = Random::new(717);
    let mut cases = 0;
    for place in 0..100 {
        let input = any_case_in(in_turn(place), &mut random).input();
        for input in input.with_copy() {
            cases += 1;
            for number in CHECKED.into_iter().filter(|number| *number != 1) {
                let found = find(number, &input.file, &input.correction, input.rows_len);
                assert_eq!(found, None, "{number}");
            }
        }
    }
    println!("{cases} accepted cases, {} of them copies", cases - 100);
    assert!(cases > 130);
}

/// The field of the header that is the first to break a limit, by the name of the fault.
fn field_of_the_header(fault: &Fault, good: &Input, bad: &Input) -> usize {
    let changed = || {
        let mut both = good.file.iter().zip(&bad.file);
        both.position(|(good, bad)| good != bad).expect("a change")
    };
    match (fault.number, fault.name) {
        (2, _) => 0,
        (3, _) => 2,
        (4, "a byte after the last section" | "the last byte missing") => 32,
        // A longer section is noticed by the offset after it, or by the end of the file.
        (4, "a length one record more") => match (changed() - 8) / 8 {
            3 => 32,
            pair => 12 + 8 * pair,
        },
        (4, "an offset one off") => changed() / 4 * 4,
        (4, "a sum past 2^32") => 12,
        (4, _) => 4,
        _ => {
            let version = version_of(&bad.file);
            let most = [64, 256, 256, 200];
            let broken = (0..4).find(|&section| {
                let (length, bytes) =
                    (section_place(&bad.file, section).1, width(version, section));
                !length.is_multiple_of(bytes) || length / bytes > most[section]
            });
            8 + 8 * broken.expect("a section")
        }
    }
}

#[test]
fn faults_of_the_header_have_their_field() {
    let mut random = Random::new(712);
    let mut located = 0;
    for version in Version::ALL {
        let good = every_kind(version, &mut random, Size::Small).input();
        for fault in faults_in(version).filter(|fault| (2..=5).contains(&fault.number)) {
            for _ in 0..40 {
                let Some(bad) = fault.put_into(&good, &mut random) else {
                    continue;
                };
                let (_, place) = found(&bad).expect("a refusal");
                let at = field_of_the_header(fault, &good, &bad);
                assert_eq!(place.at, at, "{}: {}", fault.name, place.sentence);
                located += 1;
            }
        }
    }
    println!("{located} faults of the header");
}

/// That the copy of an input, if it has one, is refused as it is, in the same record: how many copies.
fn copy_found(input: &Input) -> usize {
    let Some(copy) = input.version_2_copy() else {
        return 0;
    };
    let record = |input| {
        let (number, place) = found(input)?;
        names_its_record(&place);
        Some((number, place.part, place.record))
    };
    assert_eq!(record(&copy), record(input));
    1
}

#[test]
fn two_faults_and_noise_always_have_a_place() {
    let mut random = Random::new(713);
    let checked = |fault: &Fault| CHECKED.iter().position(|&number| number == fault.number);
    for version in Version::ALL {
        let (mut pairs, mut noise, mut accepted, mut copies) = (0, 0, 0, 0);
        for first in faults_in(version) {
            // Two faults of 5 may leave no records in which the other finds its place.
            let later = |second: &&Fault| match first.number {
                5 => checked(second) > checked(first),
                _ => checked(second) >= checked(first),
            };
            for second in faults_in(version).filter(later) {
                let good = every_kind(version, &mut random, Size::Small).input();
                // From the one that is checked last to the one that is checked first, which breaks what the other needs.
                let with_second = second.put_into(&good, &mut random);
                let both = with_second.and_then(|input| first.put_into(&input, &mut random));
                pairs += usize::from(both.as_ref().and_then(found).is_some());
                copies += both.as_ref().map_or(0, copy_found);
            }
        }
        for _ in 0..6_000 {
            let mut input = random_bytes_in(version, &mut random);
            input.rows_len = ROWS_LENGTH;
            match found(&input) {
                Some((_, place)) => {
                    names_its_record(&place);
                    noise += 1;
                }
                None => accepted += 1,
            }
            copies += copy_found(&input);
        }
        println!(
            "{version:?}: {pairs} cases of two faults and {noise} of noise described, {accepted} accepted, {copies} copies"
        );
        assert!(pairs > 2_000 && noise > 3_000);
        assert_eq!(copies > 4_000, version == Version::One);
    }
}

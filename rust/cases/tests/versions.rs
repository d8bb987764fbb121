//! Cases of version 2: copies of version 1, and such as have numbers that two bytes do not hold.

use std::collections::BTreeSet;

use attachment_h::layout::{HIGHEST_UNIT_NUMBER, Sections, converted};
use cases::case::{LARGEST_FILE, Section, sections_of, version_of};
use cases::generator::{any_case, any_case_in, case};
use cases::{Case, Component, Event, Generated, Input, Market, Random, Reference, Size, Unit};
use cases::{Version, Wanted};

/// A unit, a reference of it, an event of it and its correction.
fn one_of_each(version: Version, number: u32) -> Input {
    let reference = |value| Reference {
        unit: number,
        component: Component(3),
        value,
    };
    let case = Case {
        units: vec![Unit {
            unit: number,
            group: 0x0708,
            area: 1,
            capability: 5_000,
            ..Unit::default()
        }],
        references: vec![reference(9)],
        events: vec![Event::withheld(
            8_000,
            Market::REAL_TIME,
            number,
            &[(23, 7, -1)],
        )],
        ..Case::default()
    };
    Input::new(&case.in_version(version), &[reference(10)])
}

#[test]
fn the_number_stands_at_the_end_of_a_record() {
    let input = one_of_each(Version::Two, 0x000B_0C0D);
    let [units, references, past, events] = sections_of(&input.file);
    assert_eq!(input.file[..4], [2, 0, 4, 0]);
    assert_eq!(units[..5], [0, 0, 8, 7, 1]);
    assert_eq!(units[24..], [0x0D, 0x0C, 0x0B, 0]);
    assert_eq!(references, [0, 0, 3, 0, 9, 0, 0, 0, 0x0D, 0x0C, 0x0B, 0]);
    assert!(past.is_empty());
    assert_eq!(events[..4], [1, 1, 0, 0]);
    // Hour 23 begins at 24 + 12 × 23.
    assert_eq!(events[300..308], [7, 0, 0, 0, 255, 255, 255, 255]);
    assert_eq!(events[312..], [0x0D, 0x0C, 0x0B, 0]);
    assert_eq!(
        input.correction,
        [0, 0, 3, 0, 10, 0, 0, 0, 0x0D, 0x0C, 0x0B, 0]
    );
}

#[test]
fn a_copy_has_its_numbers_at_the_end() {
    let input = one_of_each(Version::One, 0x0C0D);
    assert_eq!(input.correction, [0x0D, 0x0C, 3, 0, 10, 0, 0, 0]);
    assert_eq!(
        input.version_2_copy(),
        Some(one_of_each(Version::Two, 0x0C0D))
    );
    // A copy has no copy of its own.
    assert_eq!(one_of_each(Version::Two, 12).version_2_copy(), None);
    let mut cut = input.clone();
    cut.correction.pop();
    assert_eq!(cut.version_2_copy(), None);
    let mut cut = input;
    cut.file.pop();
    assert_eq!(cut.version_2_copy(), None);
}

#[test]
fn a_number_of_more_than_two_bytes_has_no_version_1() {
    for (number, fits) in [(0, true), (65_535, true), (65_536, false), (999_999, false)] {
        let file = one_of_each(Version::Two, number).file;
        let sections = Sections::of(&file).expect("sections");
        for section in Section::ALL {
            let bytes = sections.bytes(section);
            let narrow = converted(section, bytes, Version::Two, Version::One);
            assert_eq!(narrow.is_some(), fits || section == Section::Past);
            let same = converted(section, bytes, Version::Two, Version::Two);
            assert_eq!(same.as_deref(), Some(bytes));
        }
        let unit = sections.unit(number).expect("its unit");
        assert_eq!(Section::Units.unit_number(Version::Two, unit), number);
        assert_eq!(sections.unit(number + 1), None);
    }
}

/// A case with its records written in another version.
fn written_in(version: Version, generated: &Generated) -> Input {
    Input::new(
        &generated.case.clone().in_version(version),
        &generated.correction,
    )
}

#[test]
fn copies_of_generated_cases() {
    let mut random = Random::new(21);
    let (mut copies, mut too_long) = (0, 0);
    for _ in 0..1_000 {
        let generated = any_case(&mut random);
        let (input, wide) = (generated.input(), written_in(Version::Two, &generated));
        match input.version_2_copy() {
            Some(copy) => {
                assert_eq!(copy, wide);
                copies += 1;
                let sections = Sections::of(&copy.file).expect("sections");
                let back = Section::ALL.map(|section| {
                    let bytes = sections.bytes(section);
                    converted(section, bytes, Version::Two, Version::One).expect("two bytes")
                });
                assert_eq!(back, sections_of(&input.file));
            }
            None => {
                assert!(wide.file.len() > LARGEST_FILE);
                too_long += 1;
            }
        }
    }
    println!("{copies} copies, {too_long} longer than a file");
    assert!(copies > 900 && too_long > 20);
}

#[test]
fn numbers_of_version_2() {
    let mut random = Random::new(22);
    let (mut small, mut large, mut both, mut alike) = (0, 0, 0, 0);
    for _ in 0..1_000 {
        let generated = any_case_in(Version::Two, &mut random);
        assert_eq!(version_of(&generated.input().file), Version::Two);
        let numbers: BTreeSet<u32> = generated.case.units.iter().map(|unit| unit.unit).collect();
        assert!(numbers.iter().all(|&number| number <= HIGHEST_UNIT_NUMBER));
        let low: BTreeSet<u32> = numbers.iter().map(|number| number & 0xFFFF).collect();
        let wide = numbers.iter().filter(|&&number| number > 65_535).count();
        small += usize::from(wide == 0);
        large += usize::from(wide == numbers.len());
        both += usize::from(wide > 0 && wide < numbers.len());
        alike += usize::from(low.len() < numbers.len());
    }
    println!("{small} small, {large} large, {both} both, {alike} with the same low bytes");
    assert!([small, large, both, alike].iter().all(|&cases| cases > 100));
}

#[test]
fn full_cases_of_version_2() {
    let mut random = Random::new(23);
    for _ in 0..300 {
        let wanted = Wanted::of(Size::Full).in_version(Version::Two);
        let generated = case(&mut random, wanted);
        assert_eq!(generated.case.events.len(), 200);
        assert_eq!(generated.input().file.len(), LARGEST_FILE);
    }
}

#[test]
fn numbered_through_in_the_same_order() {
    let mut random = Random::new(24);
    for _ in 0..300 {
        let generated = any_case_in(Version::Two, &mut random);
        let pair = generated.numbered_through();
        assert_eq!(pair.case.version, Version::One);
        assert!(
            pair.case
                .units
                .iter()
                .map(|unit| unit.unit)
                .eq(0..generated.case.units.len() as u32)
        );
        assert!(pair.case.events.is_sorted_by_key(Event::order));
        // Back to the numbers that it had, it is the same case.
        let number = |place: u32| generated.case.units[place as usize].unit;
        let mut back = pair.clone();
        back.case.version = Version::Two;
        for unit in &mut back.case.units {
            unit.unit = number(unit.unit);
        }
        for event in &mut back.case.events {
            event.unit = number(event.unit);
        }
        for reference in back.case.references.iter_mut().chain(&mut back.correction) {
            reference.unit = number(reference.unit);
        }
        assert_eq!(back, generated);
    }
}

//! The number of the check, on more inputs than are settled.

use std::collections::BTreeMap;

use cases::case::put_u16;
use cases::faults::{faults_in, faults_of, pairs_in};
use cases::generator::{any_case_in, case, random_bytes_in};
use cases::{Input, Random, Size, Version, Wanted};

use crate::Count;

/// A good case with records in every section and events of every kind.
fn every_kind(version: Version, random: &mut Random) -> Input {
    case(random, Wanted::every_kind().in_version(version)).input()
}

#[test]
fn single_faults() {
    for (version, numbers) in [(Version::One, 17), (Version::Two, 18)] {
        let mut random = Random::new(102);
        let mut count = Count::default();
        let mut by_number: BTreeMap<u8, usize> = BTreeMap::new();
        for round in 0..120 {
            let input = match round % 20 {
                0 => case(&mut random, Wanted::of(Size::Full).in_version(version)).input(),
                1..=4 => any_case_in(version, &mut random).input(),
                _ => every_kind(version, &mut random),
            };
            for fault in faults_in(version) {
                if let Some(faulty) = fault.put_into(&input, &mut random) {
                    let number = count.number(&faulty, fault.name);
                    assert_eq!(number, fault.number, "{}", fault.name);
                    *by_number.entry(number).or_default() += 1;
                }
            }
        }
        println!("{version:?}: {count:?}, by number {by_number:?}");
        assert_eq!(by_number.len(), numbers);
    }
}

#[test]
fn pairs_of_faults() {
    for version in Version::ALL {
        let mut random = Random::new(103);
        let mut count = Count::default();
        for _ in 0..8 {
            let input = every_kind(version, &mut random);
            for (first, second) in pairs_in(version) {
                for later in faults_of(version, second) {
                    let Some(one) = later.put_into(&input, &mut random) else {
                        continue;
                    };
                    for sooner in faults_of(version, first) {
                        if let Some(both) = sooner.put_into(&one, &mut random) {
                            let what = format!("{} and {}", sooner.name, later.name);
                            assert_eq!(count.number(&both, &what), first, "{what}");
                        }
                    }
                }
            }
        }
        println!("{version:?}: {count:?}");
        assert!(count.refused > 30_000);
    }
}

#[test]
fn random_cut_and_changed_bytes() {
    for version in Version::ALL {
        let mut random = Random::new(104);
        let mut count = Count::default();
        for place in 0..4_000 {
            let input = random_bytes_in(version, &mut random);
            count.number(&input, &format!("bytes {place}"));
        }
        for _ in 0..3 {
            let input = every_kind(version, &mut random);
            for length in 0..input.file.len() {
                let mut cut = input.clone();
                cut.file.truncate(length);
                count.number(&cut, "a cut case");
            }
        }
        let input = every_kind(version, &mut random);
        for place in 0..input.file.len() {
            let mut changed = input.clone();
            let step = random.pick(&[1, 127, 128, 255]);
            changed.file[place] = changed.file[place].wrapping_add(step);
            count.number(&changed, "a changed byte");
        }
        println!("{version:?}: {count:?}");
        assert!(count.refused > 20_000 && count.accepted > 100);
    }
}

#[test]
fn the_number_of_the_other_version() {
    let mut random = Random::new(105);
    for (version, other) in [(Version::One, Version::Two), (Version::Two, Version::One)] {
        let mut count = Count::default();
        for place in 0..1_000 {
            let mut input = any_case_in(version, &mut random).input();
            put_u16(&mut input.file, 0, other.number());
            count.number(&input, &format!("{version:?} as {other:?}, case {place}"));
        }
        println!("{version:?} as {other:?}: {count:?}");
        assert!(count.refused > 900);
    }
}

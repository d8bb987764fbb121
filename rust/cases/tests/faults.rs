//! In both versions, and in version 2 copies, every fault gives its number, and every pair of faults the one that is
//! checked first.

use std::collections::BTreeMap;

use cases::faults::{CHECKED, faults_in, faults_of, numbers_in, pairs_in};
use cases::generator::case;
use cases::{Input, Random, Size, Version, Wanted};
use second::refusal;

/// A good case with records in every section and events of every kind.
fn good(version: Version, random: &mut Random) -> Input {
    let wanted = Wanted::every_kind().in_version(version);
    let mut input = case(random, wanted).input();
    // Sometimes more rows than needed.
    if random.chance(1, 3) {
        input.rows_len += random.below(1_000);
    }
    assert_eq!(number(&input), 0);
    input
}

/// The number of an input, which its version 2 copy has too.
fn number(input: &Input) -> u8 {
    let number = refusal(&input.file, &input.correction, input.rows_len);
    if let Some(copy) = input.version_2_copy() {
        let of_the_copy = refusal(&copy.file, &copy.correction, copy.rows_len);
        assert_eq!(of_the_copy, number, "copied");
    }
    number
}

#[test]
fn each_fault_gives_its_number() {
    for version in Version::ALL {
        let mut random = Random::new(4);
        let mut times: BTreeMap<(u8, &str), usize> = BTreeMap::new();
        for _ in 0..60 {
            let input = good(version, &mut random);
            for fault in faults_in(version) {
                if let Some(faulty) = fault.put_into(&input, &mut random) {
                    assert_eq!(number(&faulty), fault.number, "{}", fault.name);
                    *times.entry((fault.number, fault.name)).or_default() += 1;
                }
            }
        }
        assert_eq!(times.len(), faults_in(version).count());
        assert!(times.values().all(|&times| times >= 20), "{times:?}");
        println!("{version:?}: {} faults", times.len());
        for number in CHECKED {
            let some = !faults_of(version, number).is_empty();
            assert_eq!(some, numbers_in(version).any(|other| other == number));
        }
    }
}

#[test]
fn each_pair_of_faults_gives_the_one_checked_first() {
    for (version, expected) in [(Version::One, 136), (Version::Two, 153)] {
        let mut random = Random::new(5);
        let mut pairs: BTreeMap<(u8, u8), usize> = BTreeMap::new();
        for _ in 0..12 {
            let input = good(version, &mut random);
            for (first, second) in pairs_in(version) {
                *pairs.entry((first, second)).or_default() +=
                    two_faults(version, &input, first, second, &mut random);
            }
        }
        let combinations: usize = pairs.values().sum();
        println!("{version:?}: {combinations} combinations of two faults");
        assert_eq!(pairs.len(), expected);
        assert!(pairs.values().all(|&times| times >= 10), "{pairs:?}");
    }
}

/// Every two faults of these numbers, from the one checked last, since the other may break the layout; how many have a
/// place.
fn two_faults(
    version: Version,
    input: &Input,
    first: u8,
    second: u8,
    random: &mut Random,
) -> usize {
    let mut combinations = 0;
    for later in faults_of(version, second) {
        for sooner in faults_of(version, first) {
            let Some(one) = later.put_into(input, random) else {
                continue;
            };
            assert_eq!(number(&one), second, "{}", later.name);
            let Some(faulty) = sooner.put_into(&one, random) else {
                continue;
            };
            let what = format!("{} after {}", sooner.name, later.name);
            assert_eq!(number(&faulty), first, "{what}");
            combinations += 1;
        }
    }
    combinations
}

#[test]
fn faults_in_full_files() {
    for version in Version::ALL {
        let mut random = Random::new(6);
        for _ in 0..5 {
            let wanted = Wanted::of(Size::Full).in_version(version);
            let input = case(&mut random, wanted).input();
            for fault in faults_in(version) {
                if let Some(faulty) = fault.put_into(&input, &mut random) {
                    assert_eq!(number(&faulty), fault.number, "{}", fault.name);
                }
            }
        }
    }
}

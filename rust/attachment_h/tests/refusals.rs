//! The check against the second implementation on generated inputs of both versions: cases that break nothing, every
//! fault, every pair of faults, and bytes that no case has. A version 1 input is checked as its version 2 copy too, where
//! it has one, and has the same number.

use std::collections::BTreeMap;

use attachment_h::{Refused, check};
use cases::case::put_u16;
use cases::faults::{faults_in, faults_of, pairs_in};
use cases::generator::{any_case_in, case, random_bytes_in};
use cases::{Case, Input, Random, Size, Version, Wanted};
use second::refusal;

/// The number of an input, in which both have to agree.
fn number_of(input: &Input, what: &str) -> u8 {
    let number = match check(&input.file, &input.correction, input.rows_len) {
        Ok(()) => 0,
        Err(Refused(number)) => number,
    };
    assert_eq!(
        number,
        refusal(&input.file, &input.correction, input.rows_len),
        "{what}"
    );
    number
}

/// How many inputs were checked, and how many copies of them.
#[derive(Debug, Default)]
struct Count {
    inputs: usize,
    copies: usize,
}

impl Count {
    /// The number of an input and of its version 2 copy, where it has one.
    fn number(&mut self, input: &Input, what: &str) -> u8 {
        let number = number_of(input, what);
        self.inputs += 1;
        if let Some(copy) = input.version_2_copy() {
            assert_eq!(number_of(&copy, what), number, "{what}, copied");
            self.copies += 1;
        }
        number
    }
}

/// A good case with records in every section and events of every kind.
fn every_kind(version: Version, random: &mut Random) -> Input {
    case(random, Wanted::every_kind().in_version(version)).input()
}

#[test]
fn accepted_cases() {
    for version in Version::ALL {
        let mut random = Random::new(101);
        let mut count = Count::default();
        for (size, cases) in [
            (Size::Small, 6_000),
            (Size::Medium, 1_000),
            (Size::Full, 60),
        ] {
            for place in 0..cases {
                let wanted = Wanted::of(size).in_version(version);
                let mut input = case(&mut random, wanted).input();
                // More rows than needed are as good.
                if random.chance(1, 3) {
                    input.rows_len += random.below(1_000);
                }
                let what = format!("{version:?}, {size:?} {place}");
                assert_eq!(count.number(&input, &what), 0, "{what}");
            }
        }
        let empty = Input::new(&Case::default().in_version(version), &[]);
        assert_eq!(count.number(&empty, "no records"), 0);
        println!("{version:?}: {count:?} accepted");
        // Every case but the full ones.
        assert_eq!(
            count.copies,
            if version == Version::One { 7_001 } else { 0 }
        );
    }
}

#[test]
fn single_faults() {
    for (version, numbers) in [(Version::One, 17), (Version::Two, 18)] {
        let mut random = Random::new(102);
        let mut count = Count::default();
        let mut by_number: BTreeMap<u8, usize> = BTreeMap::new();
        for round in 0..120 {
            let input = match round % 20 {
                0 => case(&mut random, Wanted::of(Size::Full).in_version(version)).input(),
                1..=4 => any_case_in(version, &mut random).input(),
                _ => every_kind(version, &mut random),
            };
            for fault in faults_in(version) {
                if let Some(faulty) = fault.put_into(&input, &mut random) {
                    let number = count.number(&faulty, fault.name);
                    assert_eq!(number, fault.number, "{}", fault.name);
                    *by_number.entry(number).or_default() += 1;
                }
            }
        }
        println!("{version:?}: {count:?}, single faults: {by_number:?}");
        assert_eq!(by_number.len(), numbers);
        assert_eq!(by_number.contains_key(&17), version == Version::Two);
    }
}

#[test]
fn pairs_of_faults_give_the_number_that_is_checked_first() {
    for version in Version::ALL {
        let mut random = Random::new(103);
        let mut count = Count::default();
        let mut pairs: BTreeMap<(u8, u8), usize> = BTreeMap::new();
        for _ in 0..8 {
            let input = every_kind(version, &mut random);
            for pair in pairs_in(version) {
                let before = count.inputs;
                two_faults(&mut random, version, &input, pair, &mut count);
                *pairs.entry(pair).or_default() += count.inputs - before;
            }
        }
        let fewest = pairs.values().min().expect("pairs");
        println!("{version:?}: {count:?}, at least {fewest} for each two numbers");
        assert_eq!(pairs.len(), pairs_in(version).len());
        assert!(*fewest > 0);
    }
    // 17 stands between 5 and 6, 18 and 19 between 10 and 11.
    let before = |later: u8| -> Vec<u8> {
        let is_before = |&number: &u8| pairs_in(Version::Two).contains(&(number, later));
        (1..=19).filter(is_before).collect()
    };
    assert_eq!(before(17), [1, 2, 3, 4, 5]);
    assert_eq!(before(18), [1, 2, 3, 4, 5, 6, 7, 8, 9, 10, 17]);
    assert_eq!(before(19), [1, 2, 3, 4, 5, 6, 7, 8, 9, 10, 17, 18]);
    assert_eq!(before(11), [1, 2, 3, 4, 5, 6, 7, 8, 9, 10, 17, 18, 19]);
    assert_eq!(pairs_in(Version::Two).len(), 153);
    assert_eq!(pairs_in(Version::One).len(), 136);
}

/// Every two faults of these numbers, put in from the one that is checked last, since the other may break the layout.
fn two_faults(
    random: &mut Random,
    version: Version,
    input: &Input,
    (first, second): (u8, u8),
    count: &mut Count,
) {
    for later in faults_of(version, second) {
        let Some(one) = later.put_into(input, random) else {
            continue;
        };
        for sooner in faults_of(version, first) {
            if let Some(both) = sooner.put_into(&one, random) {
                let what = format!("{} and {}", sooner.name, later.name);
                assert_eq!(count.number(&both, &what), first, "{what}");
            }
        }
    }
}

#[test]
fn random_and_cut_bytes() {
    for version in Version::ALL {
        let mut random = Random::new(104);
        let mut count = Count::default();
        let mut by_number = [0; 20];
        let mut add = |input: &Input, what: &str| {
            by_number[usize::from(count.number(input, what))] += 1;
        };
        for place in 0..12_000 {
            let input = random_bytes_in(version, &mut random);
            add(&input, &format!("bytes {place}"));
        }
        // Every prefix of a case.
        for _ in 0..3 {
            let input = every_kind(version, &mut random);
            for length in 0..input.file.len() {
                let mut cut = input.clone();
                cut.file.truncate(length);
                add(&cut, "a cut case");
            }
        }
        // Each byte of a case, changed.
        let input = every_kind(version, &mut random);
        for place in 0..input.file.len() {
            let mut changed = input.clone();
            let step = random.pick(&[1, 127, 128, 255]);
            changed.file[place] = changed.file[place].wrapping_add(step);
            add(&changed, "a changed byte");
        }
        println!("{version:?}: {count:?}, random, cut and changed: {by_number:?}");
        assert_eq!(by_number[17] > 0, version == Version::Two);
        assert!(by_number[18] > 0 && by_number[19] > 0);
    }
}

/// A full case cut to so many records that every section has whole records of both widths: 7 units, 3 references and 79
/// events of version 1 have the bytes of 6, 2 and 78 of version 2.
fn whole_in_both(version: Version, random: &mut Random) -> Input {
    let mut generated = case(random, Wanted::of(Size::Full).in_version(version));
    let (units, references, events) = match version {
        Version::One => (7, 3, 79),
        Version::Two => (6, 2, 78),
    };
    let mut some = |length: usize, of: usize| of * random.below(length / of + 1);
    let records = &mut generated.case;
    records.units.truncate(some(records.units.len(), units));
    records
        .references
        .truncate(some(records.references.len(), references));
    records.events.truncate(some(records.events.len(), events));
    generated.input()
}

#[test]
fn the_number_of_the_other_version() {
    let mut random = Random::new(105);
    for (version, other) in [(Version::One, Version::Two), (Version::Two, Version::One)] {
        let mut count = Count::default();
        let mut by_number = [0; 20];
        for place in 0..1_000 {
            let what = format!("{version:?} as {other:?}, case {place}");
            let mut input = any_case_in(version, &mut random).input();
            put_u16(&mut input.file, 0, other.number());
            assert_eq!(count.number(&input, &what), 5, "{what}");
            // Here the lengths fit, and the numbers of units stand elsewhere.
            let mut input = whole_in_both(version, &mut random);
            put_u16(&mut input.file, 0, other.number());
            by_number[usize::from(count.number(&input, &what))] += 1;
        }
        println!("{version:?} as {other:?}: {count:?}, {by_number:?}");
        assert_eq!(by_number[5], 0);
        assert_eq!(by_number[17] > 500, other == Version::Two);
        assert_eq!(count.copies > 500, other == Version::One);
    }
}

#[test]
fn every_number_has_a_meaning() {
    let meanings: Vec<&str> = (1..=19).map(|number| Refused(number).meaning()).collect();
    for (place, text) in meanings.iter().enumerate() {
        assert!(!meanings[..place].contains(text));
        assert_ne!(*text, Refused(20).meaning());
    }
    assert_eq!(Refused(20).meaning(), "no limit has this number");
}

#[test]
fn python_has_the_same_meanings() {
    let module = concat!(env!("CARGO_MANIFEST_DIR"), "/../../python/attachment_h.py");
    let module = std::fs::read_to_string(module).expect("the module");
    for number in 1..=19 {
        let words = format!("{number}: \"{}\"", Refused(number).meaning());
        assert_eq!(module.matches(&words).count(), 1, "{words}");
    }
}

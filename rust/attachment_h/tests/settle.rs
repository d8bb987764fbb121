//! Whole cases of both versions against the second implementation: every byte of the rows buffer, the totals and the
//! number, over buffers with something in them. A version 1 input that has a version 2 copy is settled as that copy
//! too, to the same outcome and the same bytes; a case that is of version 2 alone, because of its unit numbers, to the
//! rows that it has in version 1 with its units numbered through.

use std::collections::BTreeSet;

use attachment_h::{Cents, Kind, Refused, Settled, settle};
use cases::faults::{faults_in, faults_of, numbers_in, pairs_in};
use cases::generator::{any_case_in, case, random_bytes_in};
use cases::{Event, Generated, Input, Random, Size, Version, Wanted, growth};
use second::Outcome;

/// The outcome of an input and its buffer after that.
type After = (Result<Settled, Refused>, Vec<u8>);

/// Settles an input with both, into buffers that held the same; the outcome, in which they agree.
fn both(before: &[u8], input: &Input, what: &str) -> After {
    let (mut rows, mut expected_rows) = (before.to_vec(), before.to_vec());
    let outcome = settle(&input.file, &input.correction, &mut rows);
    let expected = match second::settle(&input.file, &input.correction, &mut expected_rows) {
        Outcome::Refused(number) => Err(Refused(number)),
        Outcome::Settled {
            rows,
            penalties,
            make_ups,
        } => Ok(Settled {
            rows,
            penalties: Cents(penalties),
            make_ups: Cents(make_ups),
        }),
    };
    assert_eq!(outcome, expected, "{what}");
    for (place, (row, expected)) in rows.chunks(128).zip(expected_rows.chunks(128)).enumerate() {
        assert_eq!(row, expected, "{what}, row {place}");
    }
    if outcome.is_err() {
        assert_eq!(rows, before, "{what}: rows untouched");
    }
    (outcome, rows)
}

fn noise(random: &mut Random, length: usize) -> Vec<u8> {
    (0..length).map(|_| random.bits() as u8).collect()
}

/// What was settled: inputs, and of them copies.
#[derive(Debug, Default)]
struct Count {
    inputs: usize,
    copies: usize,
}

impl Count {
    /// Settles an input, and its version 2 copy where it has one: the outcome of both.
    fn settle(
        &mut self,
        random: &mut Random,
        input: &Input,
        what: &str,
    ) -> Result<Settled, Refused> {
        let before = noise(random, input.rows_len);
        let after = both(&before, input, what);
        self.inputs += 1;
        if let Some(copy) = input.version_2_copy() {
            let of_the_copy = both(&before, &copy, &format!("{what}, copied"));
            assert!(
                of_the_copy == after,
                "{what}: {:?} of the copy",
                of_the_copy.0
            );
            self.copies += 1;
        }
        after.0
    }

    /// Settles a generated case; one of version 2 has the outcome and the rows of version 1, where its units have
    /// other numbers in the same order.
    fn settle_case(
        &mut self,
        random: &mut Random,
        generated: &Generated,
        what: &str,
    ) -> Result<Settled, Refused> {
        let mut input = generated.input();
        if random.chance(1, 3) {
            input.rows_len += random.below(1_000);
        }
        if generated.case.version == Version::One {
            return self.settle(random, &input, what);
        }
        let before = noise(random, input.rows_len);
        let (outcome, rows) = both(&before, &input, what);
        let through = generated.numbered_through().input();
        let mut expected = before;
        let of_version_1 = settle(&through.file, &through.correction, &mut expected);
        assert_eq!(outcome, of_version_1, "{what}, numbered through");
        assert!(rows == expected, "{what}, numbered through");
        self.inputs += 1;
        outcome
    }
}

#[test]
fn accepted_cases() {
    // Every case but the full ones has a copy.
    assert_eq!(accepted_cases_of(Version::One).copies, 19_000);
}

#[test]
fn accepted_cases_of_version_2() {
    assert_eq!(accepted_cases_of(Version::Two).copies, 0);
}

fn accepted_cases_of(version: Version) -> Count {
    let mut random = Random::new(301);
    let mut count = Count::default();
    let (mut rows, mut penalties, mut make_ups) = (0, 0, 0);
    for (size, cases) in [
        (Size::Small, 16_000),
        (Size::Medium, 3_000),
        (Size::Full, 200),
    ] {
        for place in 0..cases {
            let generated = case(&mut random, Wanted::of(size).in_version(version));
            let what = format!("{version:?}, {size:?} {place}");
            let outcome = count.settle_case(&mut random, &generated, &what);
            let settled = outcome.expect(&what);
            rows += settled.rows;
            penalties += usize::from(settled.penalties > Cents(0));
            make_ups += usize::from(settled.make_ups > Cents(0));
        }
    }
    println!(
        "{version:?}: {count:?}, {rows} rows; {penalties} with penalties, {make_ups} with make-ups"
    );
    assert!(rows > 200_000 && penalties > 5_000 && make_ups > 300);
    count
}

#[test]
fn cases_of_every_growth_step() {
    for version in Version::ALL {
        let mut random = Random::new(305);
        let mut count = Count::default();
        let full = growth::full_cases_in(version);
        for events in growth::STEPS {
            for (place, full) in full.iter().enumerate() {
                let what = format!("{version:?}, {events} events of case {place}");
                let generated = growth::with_events(full, events);
                let kinds: BTreeSet<Kind> = generated.case.events.iter().map(Event::kind).collect();
                assert_eq!(kinds.len(), 4, "{what}");
                let settled = count
                    .settle_case(&mut random, &generated, &what)
                    .expect(&what);
                assert_eq!(settled.rows, events, "{what}");
            }
        }
        println!("{version:?}: {count:?}");
        assert_eq!(count.copies, if version == Version::One { 120 } else { 0 });
    }
}

/// A case with a fault, where it has a place for one.
fn with_fault(random: &mut Random, version: Version, input: &Input, number: u8) -> Option<Input> {
    let fault = random.pick(&faults_of(version, number));
    fault.put_into(input, random)
}

/// A case with faults of two numbers, the one that is checked first put in last, since it may break the layout.
fn with_two_faults(
    random: &mut Random,
    version: Version,
    input: &Input,
    (first, second): (u8, u8),
) -> Option<Input> {
    let one = with_fault(random, version, input, second)?;
    with_fault(random, version, &one, first)
}

#[test]
fn refused_cases() {
    for version in Version::ALL {
        let mut random = Random::new(302);
        let (mut count, mut refused) = (Count::default(), 0);
        for _ in 0..20 {
            let input = any_case_in(version, &mut random).input();
            for fault in faults_in(version) {
                if let Some(faulty) = fault.put_into(&input, &mut random) {
                    let outcome = count.settle(&mut random, &faulty, fault.name);
                    assert_eq!(outcome, Err(Refused(fault.number)), "{}", fault.name);
                    refused += 1;
                }
            }
        }
        for place in 0..3_000 {
            let input = random_bytes_in(version, &mut random);
            let outcome = count.settle(&mut random, &input, &format!("bytes {place}"));
            refused += usize::from(outcome.is_err());
        }
        println!("{version:?}: {refused} refused cases of {count:?}");
        assert!(refused > 3_000);
        assert_eq!(count.copies > 1_000, version == Version::One);
    }
}

#[test]
fn pairs_of_faults() {
    for version in Version::ALL {
        let mut random = Random::new(304);
        let mut count = Count::default();
        for pair in pairs_in(version) {
            let before = count.inputs;
            for _ in 0..30 {
                let input = any_case_in(version, &mut random).input();
                let Some(faulty) = with_two_faults(&mut random, version, &input, pair) else {
                    continue;
                };
                let outcome = count.settle(&mut random, &faulty, &format!("{pair:?}"));
                assert_eq!(outcome, Err(Refused(pair.0)), "{pair:?}");
            }
            assert!(count.inputs > before, "{pair:?}");
        }
        let pairs = pairs_in(version).len();
        println!("{version:?}: {count:?} with two faults, of {pairs} pairs of numbers");
    }
}

/// A case of any size, one in four with faults of one or two numbers, or bytes that no case has.
fn any_input(version: Version, random: &mut Random) -> Input {
    if random.chance(1, 25) {
        return random_bytes_in(version, random);
    }
    let size = match random.below(400) {
        0 => Size::Full,
        1..=20 => Size::Medium,
        _ => Size::Small,
    };
    let input = case(random, Wanted::of(size).in_version(version)).input();
    let numbers: Vec<u8> = numbers_in(version).collect();
    let places = [random.below(numbers.len()), random.below(numbers.len())];
    let pair = (
        numbers[places[0].min(places[1])],
        numbers[places[0].max(places[1])],
    );
    let faulty = match random.below(8) {
        0 => with_fault(random, version, &input, pair.0),
        1 => with_two_faults(random, version, &input, pair),
        _ => None,
    };
    faulty.unwrap_or(input)
}

/// Settles so many inputs of a seed; what was settled, how many of them were accepted, and their rows.
fn settle_many(version: Version, seed: u64, inputs: usize) -> (Count, usize, usize) {
    let mut random = Random::new(seed);
    let (mut count, mut accepted, mut rows) = (Count::default(), 0, 0);
    for place in 0..inputs {
        let input = any_input(version, &mut random);
        let what = format!("{version:?}, seed {seed}, input {place}");
        if let Ok(settled) = count.settle(&mut random, &input, &what) {
            accepted += 1;
            rows += settled.rows;
        }
    }
    (count, accepted, rows)
}

#[test]
#[ignore = "takes minutes: sh scripts/million"]
fn a_million_cases() {
    let (seeds, each) = (20, 50_000);
    for version in Version::ALL {
        let (mut inputs, mut copies, mut accepted, mut rows) = (0, 0, 0, 0);
        for seed in 1..=seeds {
            let (count, more, their_rows) = settle_many(version, seed, each);
            inputs += count.inputs;
            copies += count.copies;
            accepted += more;
            rows += their_rows;
        }
        println!(
            "{version:?}: {inputs} inputs, {accepted} accepted with {rows} rows, the others refused; {copies} copies"
        );
        assert!(accepted > inputs / 2 && accepted < inputs);
        assert_eq!(copies > inputs / 2, version == Version::One);
    }
}

#[test]
fn a_case_is_settled_the_same_again() {
    // Nothing is kept between calls, also of the other version, and a settled buffer is as good as any other.
    let mut random = Random::new(303);
    let mut count = Count::default();
    for place in 0..100 {
        let [version, other] = [Version::ALL[place % 2], Version::ALL[place / 2 % 2]];
        let input = any_case_in(version, &mut random).input();
        let between = any_case_in(other, &mut random);
        let after = again(&mut random, &input, &between);
        count.inputs += 1;
        if let Some(copy) = input.version_2_copy() {
            let of_the_copy = again(&mut random, &copy, &between);
            assert!(of_the_copy == after, "case {place}, copied");
            count.copies += 1;
        }
    }
    println!("{count:?} settled again");
    assert!(count.copies > 30);
}

/// Settles an input, another case and the input again, into the same buffer: its outcome and its buffer both times.
fn again(random: &mut Random, input: &Input, between: &Generated) -> After {
    let mut rows = vec![0; input.rows_len];
    let first = settle(&input.file, &input.correction, &mut rows);
    let once = rows.clone();
    let another = Count::default().settle_case(random, between, "another");
    another.expect("accepted");
    assert_eq!(settle(&input.file, &input.correction, &mut rows), first);
    assert_eq!(rows, once);
    (first, once)
}

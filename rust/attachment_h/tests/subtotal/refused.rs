//! Refused cases: the number is that of the check with no correction and rows that are long enough, whatever the event number,
//! so that a fault of the correction or of the rows refuses nothing; then 10.

use std::collections::BTreeMap;

use attachment_h::{Kind, ROWS_LENGTH, Refused, check};
use cases::faults::{Fault, faults_in, faults_of, numbers_in, pairs_in};
use cases::generator::{any_case_in, case, random_bytes_in};
use cases::{Event, Input, Random, Version, Wanted};

use crate::agreed;

/// The files of an input and of its version 2 copy.
fn files_of(input: Input) -> Vec<Vec<u8>> {
    let inputs = input.with_copy().into_iter();
    inputs.map(|input| input.file).collect()
}

/// The number that the case alone is refused with.
fn number_of(files: &[Vec<u8>]) -> Result<(), Refused> {
    check(&files[0], &[], ROWS_LENGTH)
}

fn is_fuel(events: &[Event], event: usize) -> bool {
    let record = events.get(event);
    record.is_some_and(|record| record.kind() == Kind::FUEL)
}

/// The answer for an event number, but for its figure: the case's number comes before 10.
fn expected(number: Result<(), Refused>, events: &[Event], event: usize) -> Result<(), Refused> {
    number?;
    if is_fuel(events, event) {
        Ok(())
    } else {
        Err(Refused(10))
    }
}

/// Answers by the number of the fault.
#[derive(Debug, Default)]
struct Answers {
    /// Refused with the case's number, for a fuel event of the case without the fault.
    of_fuel_events: BTreeMap<u8, usize>,
    /// The same for a number that is no fuel event's.
    of_other_numbers: BTreeMap<u8, usize>,
    /// Given, since the fault is not of the case alone.
    given: BTreeMap<u8, usize>,
    /// Refused with 10 in such a case.
    no_fuel_event: BTreeMap<u8, usize>,
    copies: usize,
}

impl Answers {
    /// Every event number of a case with a fault, and some past its end; `events` are those of the case without it.
    fn add(&mut self, fault: &Fault, faulty: Input, events: &[Event]) {
        let files = files_of(faulty);
        self.copies += files.len() - 1;
        let number = number_of(&files);
        let either = [Ok(()), Err(Refused(fault.number))];
        assert!(either.contains(&number), "{}: {number:?}", fault.name);
        let past_the_end = [events.len(), events.len() + 1, 1 << 32, usize::MAX];
        for event in (0..events.len()).chain(past_the_end) {
            let answer = agreed(&files, event, fault.name).map(|_| ());
            let expected = expected(number, events, event);
            assert_eq!(answer, expected, "{}, event {event}", fault.name);
            let answers = match (number, is_fuel(events, event)) {
                (Err(_), true) => &mut self.of_fuel_events,
                (Err(_), false) => &mut self.of_other_numbers,
                (Ok(()), true) => &mut self.given,
                (Ok(()), false) => &mut self.no_fuel_event,
            };
            *answers.entry(fault.number).or_default() += 1;
        }
    }

    fn done(&self, version: Version) {
        println!("{version:?}: {self:?}");
        let mut of_the_case: Vec<u8> = numbers_in(version).collect();
        of_the_case.retain(|number| ![8, 15].contains(number));
        of_the_case.sort_unstable();
        for answers in [&self.of_fuel_events, &self.of_other_numbers] {
            assert!(answers.keys().eq(&of_the_case));
            assert!(answers.values().all(|&times| times > 50));
        }
        // 14 is of the case where r is missing, and of the correction where c is.
        for answers in [&self.given, &self.no_fuel_event] {
            assert!(answers.keys().eq(&[8_u8, 14, 15]));
            assert!(answers.values().all(|&times| times > 50));
        }
        assert_eq!(self.copies > 1_000, version == Version::One);
    }
}

#[test]
fn every_fault_of_a_case() {
    for version in Version::ALL {
        let mut random = Random::new(921);
        let mut answers = Answers::default();
        for _ in 0..20 {
            let wanted = Wanted::every_kind().in_version(version);
            let generated = case(&mut random, wanted);
            for fault in faults_in(version) {
                if let Some(faulty) = fault.put_into(&generated.input(), &mut random) {
                    answers.add(fault, faulty, &generated.case.events);
                }
            }
        }
        answers.done(version);
    }
}

/// An input with faults of two numbers, the one that is checked first put in last, since it may break the layout.
fn with_two_faults(
    random: &mut Random,
    version: Version,
    input: &Input,
    (first, second): (u8, u8),
) -> Option<Input> {
    let later = random.pick(&faults_of(version, second));
    let sooner = random.pick(&faults_of(version, first));
    let one = later.put_into(input, random)?;
    sooner.put_into(&one, random)
}

/// Cases with two faults by which of their numbers they are refused with: the second where the first is of the correction,
/// none where both are of the correction or the rows.
#[derive(Debug, Default)]
struct Pairs {
    first: usize,
    second: usize,
    none: usize,
}

impl Pairs {
    fn add(&mut self, pair: (u8, u8), faulty: Input, events: &[Event]) {
        let files = files_of(faulty);
        let number = number_of(&files);
        match number {
            Err(Refused(number)) if number == pair.0 => self.first += 1,
            Err(Refused(number)) if number == pair.1 => self.second += 1,
            Err(number) => panic!("{pair:?}: {number}"),
            Ok(()) => self.none += 1,
        }
        for event in (0..events.len().min(20)).chain([events.len(), usize::MAX]) {
            let answer = agreed(&files, event, &format!("{pair:?}")).map(|_| ());
            let expected = expected(number, events, event);
            assert_eq!(answer, expected, "{pair:?}, event {event}");
        }
    }
}

#[test]
fn pairs_of_faults() {
    for version in Version::ALL {
        let mut random = Random::new(922);
        let mut pairs = Pairs::default();
        for pair in pairs_in(version) {
            let mut tried = 0;
            for _ in 0..20 {
                let generated = any_case_in(version, &mut random);
                let input = generated.input();
                if let Some(faulty) = with_two_faults(&mut random, version, &input, pair) {
                    pairs.add(pair, faulty, &generated.case.events);
                    tried += 1;
                }
            }
            assert!(tried > 0, "{pair:?}");
        }
        println!("{version:?}: {pairs:?}");
        assert!(pairs.first > 1_000 && pairs.second > 50 && pairs.none > 10);
    }
}

#[test]
fn bytes_that_no_case_has() {
    for version in Version::ALL {
        let mut random = Random::new(923);
        let (mut given, mut no_fuel_event, mut refused) = (0, 0, 0);
        for place in 0..4_000 {
            let files = files_of(random_bytes_in(version, &mut random));
            let number = number_of(&files);
            for event in (0..12).chain([199, usize::MAX]) {
                let what = format!("{version:?}, bytes {place}");
                match (number, agreed(&files, event, &what)) {
                    (Ok(()), Ok(_)) => given += 1,
                    (Ok(()), Err(Refused(10))) => no_fuel_event += 1,
                    (Err(number), Err(answer)) if number == answer => refused += 1,
                    (number, answer) => panic!("{what}, event {event}: {number:?}, {answer:?}"),
                }
            }
        }
        println!("{version:?}: {given} given, {no_fuel_event} no fuel event, {refused} refused");
        assert!(given > 200 && no_fuel_event > 500 && refused > 20_000);
    }
}

//! Faults of every number of a case, 1 to 15 and 17 to 19, as functions on the bytes of a good case.
//!
//! Two faults are put into one case from the one that is checked last to the one that is checked first: the first ones
//! break the layout that the others need to find their place. The case is then refused with the first.

mod calendar;
mod events;
mod layout;
mod places;
mod records;
mod version_2;

use attachment_h::layout::Version;

use crate::case::Input;
use crate::generator::{Wanted, case};
use crate::random::Random;
use calendar::FAULTS_OF_THE_CALENDAR;
use events::FAULTS_OF_EVENTS;
use layout::FAULTS_OF_THE_LAYOUT;
use records::FAULTS_OF_RECORDS;
use version_2::FAULTS_OF_VERSION_2;

/// A fault: what it breaks and how it is put into a case.
#[derive(Clone, Copy)]
pub struct Fault {
    /// The number with which the case is then refused.
    pub number: u8,
    /// What is wrong.
    pub name: &'static str,
    /// Puts the fault into a case whose sections follow on; None if the case has no place for it, and is then of no
    /// use any more.
    pub apply: fn(&mut Input, &mut Random) -> Option<()>,
}

impl Fault {
    /// A case with the fault, where it has a place for it.
    pub fn put_into(&self, input: &Input, random: &mut Random) -> Option<Input> {
        let mut faulty = input.clone();
        (self.apply)(&mut faulty, random).map(|()| faulty)
    }
}

const fn fault(
    number: u8,
    name: &'static str,
    apply: fn(&mut Input, &mut Random) -> Option<()>,
) -> Fault {
    Fault {
        number,
        name,
        apply,
    }
}

/// The numbers of a case in the order in which they are checked.
pub const CHECKED: [u8; 18] = [
    1, 2, 3, 4, 5, 17, 6, 7, 8, 9, 10, 18, 19, 11, 12, 13, 14, 15,
];

/// The numbers that a case of this version can be refused with, in the order in which they are checked.
pub fn numbers_in(version: Version) -> impl DoubleEndedIterator<Item = u8> + Clone {
    CHECKED
        .into_iter()
        .filter(move |&number| number != 17 || version == Version::Two)
}

/// Every two of these numbers, the one that is checked first first.
pub fn pairs_in(version: Version) -> Vec<(u8, u8)> {
    let numbers: Vec<u8> = numbers_in(version).collect();
    let after = |place: usize| numbers[place + 1..].iter();
    (0..numbers.len())
        .flat_map(|place| {
            after(place)
                .map(|&high| (numbers[place], high))
                .collect::<Vec<_>>()
        })
        .collect()
}

/// The faults that a case of this version can have.
pub fn faults_in(version: Version) -> impl Iterator<Item = &'static Fault> {
    let of_either = [
        FAULTS_OF_THE_LAYOUT,
        FAULTS_OF_RECORDS,
        FAULTS_OF_EVENTS,
        FAULTS_OF_THE_CALENDAR,
    ];
    let more = match version {
        Version::One => &[],
        Version::Two => FAULTS_OF_VERSION_2,
    };
    of_either.into_iter().flatten().chain(more)
}

/// Those of them with this number.
pub fn faults_of(version: Version, number: u8) -> Vec<Fault> {
    faults_in(version)
        .filter(|fault| fault.number == number)
        .copied()
        .collect()
}

/// Every fault but that of the rows, 15, in those of 20 small cases that have a place for it.
pub fn faulty_cases(version: Version, random: &mut Random) -> Vec<(&'static Fault, Input)> {
    let wanted = Wanted::every_kind().in_version(version);
    let inputs: Vec<Input> = (0..20).map(|_| case(random, wanted).input()).collect();
    let mut faulty = Vec::new();
    for fault in faults_in(version).filter(|fault| fault.number != 15) {
        let before = faulty.len();
        for input in &inputs {
            faulty.extend(fault.put_into(input, random).map(|input| (fault, input)));
        }
        assert!(faulty.len() > before, "no case for {}", fault.name);
    }
    faulty
}

//! Refused cases, and bytes that no case has, beside the second implementation.

use attachment_h::Refused;
use cases::faults::{faults_in, faulty_cases};
use cases::generator::{case, random_bytes_in};
use cases::{Random, Version, Wanted};

use crate::{Inputs, both};

#[test]
fn every_fault_of_a_case() {
    for version in Version::ALL {
        let mut random = Random::new(921);
        let (mut refused, mut copies) = (0, 0);
        for (fault, faulty) in faulty_cases(version, &mut random) {
            let faulty = Inputs::of(faulty);
            copies += usize::from(faulty.other.is_some());
            // The case's number comes before those of the event and of the buffer.
            for event in [0, usize::MAX] {
                let worked = both(&mut random, &faulty, event, fault.name);
                let number = Some(Refused(fault.number));
                assert_eq!(worked.err(), number, "{}", fault.name);
            }
            refused += 1;
        }
        println!("{version:?}: {refused} refused, {copies} of them copied");
        assert_eq!(copies > 1_000, version == Version::One);
    }
}

#[test]
fn no_rows_are_asked_for() {
    let mut random = Random::new(922);
    for version in Version::ALL {
        for fault in faults_in(version).filter(|fault| fault.number == 15) {
            let wanted = Wanted::every_kind().in_version(version);
            let input = case(&mut random, wanted).input();
            let faulty = fault.put_into(&input, &mut random);
            let inputs = Inputs::of(faulty.expect("a case with events"));
            assert_eq!(inputs.other.is_some(), version == Version::One);
            assert!(both(&mut random, &inputs, 0, fault.name).is_ok());
        }
    }
}

#[test]
fn bytes_that_no_case_has() {
    for version in Version::ALL {
        let mut random = Random::new(923);
        let (mut accepted, mut refused, mut copies) = (0, 0, 0);
        for place in 0..4_000 {
            let inputs = Inputs::of(random_bytes_in(version, &mut random));
            copies += usize::from(inputs.other.is_some());
            let event = random.pick(&[0, 0, 0, 1, 2, 7, 199, 200, usize::MAX]);
            match both(&mut random, &inputs, event, &format!("bytes {place}")) {
                Ok(_) => accepted += 1,
                Err(_) => refused += 1,
            }
        }
        println!("{version:?}: {accepted} accepted, {refused} refused, {copies} copied");
        assert!(accepted > 100 && refused > 2_000);
        assert_eq!(copies > 100, version == Version::One);
    }
}

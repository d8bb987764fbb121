//! The working of every hour of random cases of both versions, against the settled rows and the fields of the file. Every
//! hour of a version 1 case has the same working in its version 2 copy.

use attachment_h::layout::Sections;
use attachment_h::{Refused, Working, settle, working};
use cases::case::{Section, u16_at, u32_at};
use cases::faults::faulty_cases;
use cases::generator::case;
use cases::{Input, Random, Row, Size, Version, Wanted};

/// What a taken comparison that fails first says, from the comparisons alone.
fn first_failed(hour: &Working) -> u8 {
    let fails = |place: &usize| {
        let comparison = hour.comparisons[*place];
        comparison.taken && comparison.left > comparison.right
    };
    (0..4).find(fails).map_or(0, |place| place as u8 + 1)
}

/// How many hours fail each comparison, and how many were worked in a copy too.
#[derive(Debug, Default)]
struct Hours {
    failed: [usize; 5],
    copied: usize,
}

/// Every hour of a case.
fn work(input: Input, hours: &mut Hours) {
    let both = input.with_copy();
    let (input, copy) = (&both[0], both.get(1));
    let mut rows = vec![0; 25_600];
    let settled = settle(&input.file, &input.correction, &mut rows).expect("accepted");
    let sections = Sections::of(&input.file).expect("an accepted case has its sections");
    for (place, event) in sections.records(Section::Events).enumerate() {
        let row = Row::of(&rows, place);
        for hour in 0..24 {
            let what = format!("event {place}, hour {hour}");
            let worked = working(&input.file, &input.correction, place, hour).expect(&what);
            if let Some(copy) = copy {
                let copied = working(&copy.file, &copy.correction, place, hour);
                assert_eq!(copied, Ok(worked), "{what}, copied");
                hours.copied += 1;
            }
            assert_eq!(worked.flagged, row.flags.0 >> hour & 1 == 1, "{what}");
            assert_eq!(worked.failed, first_failed(&worked), "{what}");
            assert_eq!(worked.failed > 0, worked.flagged, "{what}");
            assert_eq!((worked.n3, worked.n2), (row.n3, row.n2), "{what}");
            assert_eq!(worked.a, u32_at(event, 24 + 12 * hour), "{what}");
            let parts = (i64::from(worked.increase), worked.decrease);
            if event[0] == 4 {
                let d = i64::from(worked.a.cast_signed()) - i64::from(worked.reference);
                assert_eq!(parts, (d.max(0), d.min(0).unsigned_abs()), "{what}");
            } else {
                assert_eq!((worked.reference, worked.total), (0, 0), "{what}");
                assert_eq!(parts, (0, 0), "{what}");
            }
            hours.failed[usize::from(worked.failed)] += 1;
        }
    }
    for (event, hour) in [(settled.rows, 0), (0, 24), (usize::MAX, usize::MAX)] {
        for input in &both {
            let worked = working(&input.file, &input.correction, event, hour);
            assert_eq!(worked, Err(Refused(10)));
        }
    }
}

#[test]
fn every_hour() {
    for version in Version::ALL {
        let mut random = Random::new(701);
        let mut hours = Hours::default();
        for (size, count) in [(Size::Small, 400), (Size::Medium, 40), (Size::Full, 2)] {
            for _ in 0..count {
                let wanted = Wanted::of(size).in_version(version);
                work(case(&mut random, wanted).input(), &mut hours);
            }
        }
        println!("{version:?}, hours by the comparison that fails: {hours:?}");
        assert!(hours.failed.iter().all(|&hours| hours > 50));
        assert_eq!(hours.copied > 80_000, version == Version::One);
    }
}

/// A case of version 2 has the workings that it has in version 1 with its units numbered through.
#[test]
fn six_digit_numbers() {
    let mut random = Random::new(704);
    let mut hours = 0;
    for _ in 0..400 {
        let wanted = Wanted::of(Size::Small).in_version(Version::Two);
        let generated = case(&mut random, wanted);
        let (input, through) = (generated.input(), generated.numbered_through().input());
        for event in 0..generated.case.events.len() {
            for hour in 0..24 {
                assert_eq!(
                    working(&input.file, &input.correction, event, hour),
                    working(&through.file, &through.correction, event, hour)
                );
                hours += 1;
            }
        }
    }
    println!("{hours} hours numbered through");
    assert!(hours > 20_000);
}

/// S of every withheld and dispatch hour and G of the withheld ones, summed again over the file and over its copy.
#[test]
fn sums() {
    for version in Version::ALL {
        let mut random = Random::new(702);
        let (mut checked, mut copied) = (0, 0);
        for _ in 0..200 {
            let wanted = Wanted::of(Size::Small).in_version(version);
            let input = case(&mut random, wanted).input();
            checked += sums_of(&input);
            copied += input.version_2_copy().map_or(0, |copy| sums_of(&copy));
        }
        println!("{version:?}: sums of {checked} hours, of {copied} in a copy too");
        assert!(checked > 1_000);
        assert_eq!(copied, if version == Version::One { checked } else { 0 });
    }
}

/// The sums of a case; how many hours there were.
fn sums_of(input: &Input) -> usize {
    let sections = Sections::of(&input.file).expect("an accepted case has its sections");
    let version = sections.version();
    let units: Vec<&[u8]> = sections.records(Section::Units).collect();
    let events: Vec<&[u8]> = sections.records(Section::Events).collect();
    let group = |event: &[u8]| {
        let unit = sections.unit(Section::Events.unit_number(version, event));
        u16_at(unit.expect("listed"), 2)
    };
    let mut checked = 0;
    let of_power = |(_, event): &(usize, &&[u8])| event[0] <= 2;
    for (place, event) in events.iter().enumerate().filter(of_power) {
        let own = group(event);
        let g: u64 = units
            .iter()
            .filter(|record| event[0] == 1 && u16_at(record, 2) == own)
            .map(|record| u64::from(u32_at(record, 8)))
            .sum();
        for hour in 0..24 {
            let s: u64 = events
                .iter()
                .filter(|other| other[..2] == event[..2] && other[8..12] == event[8..12])
                .filter(|other| group(other) == own)
                .map(|other| u64::from(u32_at(other, 24 + 12 * hour)))
                .sum();
            let worked = working(&input.file, &input.correction, place, hour).expect("accepted");
            assert_eq!((worked.s, worked.g), (s, g), "event {place}, hour {hour}");
            checked += 1;
        }
    }
    checked
}

#[test]
fn refused_cases() {
    for version in Version::ALL {
        let mut random = Random::new(703);
        let (mut refused, mut copies) = (0, 0);
        for (fault, faulty) in faulty_cases(version, &mut random) {
            let both = faulty.with_copy();
            copies += both.len() - 1;
            for input in both {
                let worked = working(&input.file, &input.correction, 0, 0);
                assert_eq!(worked, Err(Refused(fault.number)), "{}", fault.name);
            }
            refused += 1;
        }
        println!("{version:?}: {refused} refused, {copies} of them copied");
        assert_eq!(copies > 1_000, version == Version::One);
    }
}

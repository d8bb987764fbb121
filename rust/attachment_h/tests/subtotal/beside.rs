//! Every event number of generated cases beside the second implementation and the fields of the case.

use attachment_h::{Kind, Refused};
use cases::case::EVERY_HOUR;
use cases::generator::case;
use cases::{Case, Generated, Random, Size, Version, Wanted};

use crate::many_plants::many_plants;
use crate::{agreed, files, inaccurate_hours, part_over, party_days};

/// How many event numbers were compared, and how many of them have what a subtotal tells apart.
#[derive(Debug, Default)]
struct Seen {
    fuel: usize,
    in_both_versions: usize,
    below_0: usize,
    own_hours_differ: usize,
    every_hour_differs: usize,
    empty_p: usize,
    party_days: [usize; 3],
    other_kinds: usize,
    past_the_end: usize,
}

impl Seen {
    /// Every event number of a case, and some past its end.
    fn add(&mut self, generated: &Generated, what: &str) {
        let (case, files) = (&generated.case, files(generated));
        for events in party_days(case).values() {
            self.add_party_day(case, events, &files, what);
        }
        let not_fuel = |&event: &usize| case.events[event].kind() != Kind::FUEL;
        for event in (0..case.events.len()).filter(not_fuel) {
            let answer = agreed(&files, event, what);
            assert_eq!(answer, Err(Refused(10)), "{what}, event {event}");
            self.other_kinds += 1;
        }
        let count = case.events.len();
        for event in [count, count + 1, usize::MAX] {
            let answer = agreed(&files, event, what);
            assert_eq!(answer, Err(Refused(10)), "{what}, event {event}");
            self.past_the_end += 1;
        }
    }

    fn add_party_day(&mut self, case: &Case, events: &[usize], files: &[Vec<u8>], what: &str) {
        let records = events.iter().map(|&event| &case.events[event]);
        let union = records.fold(0, |union, event| union | inaccurate_hours(event));
        self.party_days[events.len().min(3) - 1] += 1;
        for &event in events {
            let record = &case.events[event];
            let figure = agreed(files, event, what).expect(what);
            assert_eq!(figure, part_over(record, union), "{what}, event {event}");
            let own = inaccurate_hours(record);
            self.fuel += 1;
            self.in_both_versions += usize::from(files.len() == 2);
            self.below_0 += usize::from(figure < 0);
            self.own_hours_differ += usize::from(part_over(record, own) != figure);
            self.every_hour_differs += usize::from(part_over(record, EVERY_HOUR) != figure);
            self.empty_p += usize::from(own == 0 && union != 0);
        }
    }
}

#[test]
fn generated_cases() {
    // Every case but the six full ones has a copy.
    let seen = generated_cases_of(Version::One);
    assert!(seen.in_both_versions < seen.fuel);
}

#[test]
fn generated_cases_of_version_2() {
    let seen = generated_cases_of(Version::Two);
    assert_eq!(seen.in_both_versions, seen.fuel);
}

fn generated_cases_of(version: Version) -> Seen {
    let mut random = Random::new(901);
    let mut seen = Seen::default();
    for (size, count) in [(Size::Small, 6_000), (Size::Medium, 300), (Size::Full, 6)] {
        for place in 0..count {
            let generated = case(&mut random, Wanted::of(size).in_version(version));
            seen.add(&generated, &format!("{version:?}, {size:?} {place}"));
        }
    }
    println!("{version:?}, generated: {seen:?}");
    assert!(seen.fuel > 6_000 && seen.in_both_versions > 5_000);
    assert!(seen.other_kinds > 20_000 && seen.past_the_end == 3 * 6_306);
    let counted = [
        seen.below_0,
        seen.own_hours_differ,
        seen.every_hour_differs,
        seen.empty_p,
        seen.party_days[0],
        seen.party_days[1],
        seen.party_days[2],
    ];
    assert!(counted.iter().all(|&times| times > 100));
    seen
}

#[test]
fn party_days_of_many_plants() {
    for version in Version::ALL {
        let mut random = Random::new(902);
        let mut seen = Seen::default();
        for place in 0..60 {
            let generated = many_plants(version, &mut random);
            seen.add(&generated, &format!("{version:?}, many plants {place}"));
        }
        println!("{version:?}, many plants: {seen:?}");
        assert_eq!(seen.in_both_versions, seen.fuel);
        assert!(seen.fuel > 3_000 && seen.party_days[2] > 300);
        assert!(seen.below_0 > 1_000 && seen.own_hours_differ > 1_000 && seen.empty_p > 300);
    }
}

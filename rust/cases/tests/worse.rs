//! Demand 3 on the second implementation, in both versions: worse conduct never lowers a flag, a
//! multiplier, a penalty or the total of penalties.

use cases::calendar::{FIRST_DAY_BEYOND, period_of, window_start};
use cases::case::{ROW_BYTES, section_place, u32_at};
use cases::generator::case;
use cases::worse::{Change, apply, apply_all, is_worse, random_changes};
use cases::{Case, Component, Event, Input, Kind, Market, Past, Random, Row, Size, Unit};
use cases::{Version, Wanted};
use second::{Outcome, fuel_party_days, settle};

/// The rows and the total of penalties, or None if the case is refused.
fn settled(file: &[u8], correction: &[u8], held: u8) -> Option<(Vec<Row>, u64)> {
    let mut buffer = vec![held; 200 * ROW_BYTES];
    match settle(file, correction, &mut buffer) {
        Outcome::Refused(_) => None,
        Outcome::Settled {
            rows, penalties, ..
        } => Some((
            (0..rows).map(|place| Row::of(&buffer, place)).collect(),
            penalties,
        )),
    }
}

/// What demand 3 says of the rows before and after, and of the totals.
fn keeps_demand_3(before: &(Vec<Row>, u64), after: &(Vec<Row>, u64)) -> bool {
    before.0.len() == after.0.len()
        && before.1 <= after.1
        && before.0.iter().zip(&after.0).all(|(before, after)| {
            before.flags.0 & !after.flags.0 == 0
                && before.multiplier.0 <= after.multiplier.0
                && before.penalty.0 <= after.penalty.0
        })
}

#[test]
fn random_lists_keep_demand_3() {
    for version in Version::ALL {
        random_lists(version);
    }
}

/// Lists that were made, compared, refused after, with a higher total and made in a copy too, and the compared changes.
#[derive(Debug, Default)]
struct Lists {
    made: usize,
    compared: usize,
    changes: usize,
    refused: usize,
    risen: usize,
    copied: usize,
}

fn random_lists(version: Version) {
    let mut random = Random::new(7);
    let mut lists = Lists::default();
    for place in 0..3_000 {
        let size = match place % 30 {
            0 => Size::Full,
            1..=9 => Size::Medium,
            _ => Size::Small,
        };
        let wanted = Wanted {
            version,
            // Without it most cases have a fuel party-day with E below 0, and are left out.
            fuel_not_negative: random.chance(2, 3),
            ..Wanted::of(size)
        };
        let input = case(&mut random, wanted).input();
        let days = fuel_party_days(&input.file, &input.correction);
        let days = days.expect("generated cases are accepted");
        if days.iter().all(|day| day.e >= 0) {
            lists_of_a_case(&input, &mut random, &mut lists, &format!("case {place}"));
        }
    }
    println!("{version:?}: {lists:?}");
    assert!(lists.compared > 4_000 && lists.refused > 100 && lists.risen > 1_000);
    assert_eq!(lists.copied > 4_000, version == Version::One);
}

/// Some lists of changes of a case under the premise.
fn lists_of_a_case(input: &Input, random: &mut Random, lists: &mut Lists, what: &str) {
    let before = settled(&input.file, &input.correction, 0x00).expect("accepted");
    for most in [1, 4, 40] {
        let (list, file) = random_changes(&input.file, most, random);
        lists.made += 1;
        let after = settled(&file, &input.correction, 0xFF);
        lists.copied += usize::from(same_of_the_copy(input, &list, &file, &after));
        let Some(after) = after else {
            lists.refused += 1;
            continue;
        };
        assert!(keeps_demand_3(&before, &after), "{what}: {list:?}");
        lists.compared += 1;
        lists.changes += list.len();
        lists.risen += usize::from(before.1 < after.1);
    }
}

/// The list makes of the version 2 copy the copy of the changed file, with the same rows, or refused too; whether there
/// are copies of both.
fn same_of_the_copy(
    input: &Input,
    list: &[Change],
    changed: &[u8],
    after: &Option<(Vec<Row>, u64)>,
) -> bool {
    let changed = Input {
        file: changed.to_vec(),
        ..input.clone()
    };
    let (Some(copy), Some(changed_copy)) = (input.version_2_copy(), changed.version_2_copy())
    else {
        return false;
    };
    let file = apply_all(&copy.file, list).expect("worsening changes");
    assert!(file == changed_copy.file, "{list:?}");
    assert_eq!(settled(&file, &copy.correction, 0x5A), *after, "{list:?}");
    true
}

#[test]
fn an_empty_list_changes_nothing() {
    let mut random = Random::new(8);
    for _ in 0..50 {
        let input = case(&mut random, Wanted::of(Size::Small)).input();
        let copy = input.version_2_copy().expect("a copy");
        for input in [input, copy] {
            let (list, file) = random_changes(&input.file, 0, &mut random);
            assert!(list.is_empty());
            assert_eq!(file, input.file);
        }
    }
}

/// The number of the one unit of the cases by hand.
const NUMBER: u32 = 12;

/// One unit of 5,000, with this event.
fn with_event(event: Event) -> Case {
    Case {
        units: vec![Unit {
            unit: NUMBER,
            group: 7,
            capability: 5_000,
            ..Unit::default()
        }],
        events: vec![event],
        ..Case::default()
    }
}

#[test]
fn the_premise_is_needed() {
    // E −10,000,000 and T 2,000,000: 1,000,000 cents with M 2, 500,000 with M 3.
    let event = Event::fuel(
        8_000,
        Market::DAY_AHEAD,
        NUMBER,
        (0, -1_000_000, 2_000_000),
        &[],
    );
    let change = Change::PastEntry {
        place: 0,
        entry: Past::of_day(7, Kind::FUEL, Market::REAL_TIME, 7_999),
    };
    for version in Version::ALL {
        let file = with_event(event).in_version(version).to_bytes();
        assert_eq!(fuel_party_days(&file, &[]).unwrap()[0].e, -10_000_000);
        let before = settled(&file, &[], 0).unwrap();
        let after = settled(&apply(&file, &change).unwrap(), &[], 0).unwrap();
        assert_eq!((before.1, after.1), (1_000_000, 500_000));
        assert!(!keeps_demand_3(&before, &after));
    }
}

#[test]
fn demand_3_leaves_out_mitigated_hours() {
    // Hour 10 with R 8 is mitigated from 10 to 17; hour 5 failing too, from 5 to 12.
    let mut case = with_event(
        Event::bids(8_000, Market::DAY_AHEAD, NUMBER, 1, 0, &[(10, 9_000, 0, 0)])
            .with_minimum_run_hours(8),
    );
    case.references = vec![cases::Reference {
        unit: NUMBER,
        component: Component(1),
        value: 2_000,
    }];
    let change = Change::Hour {
        event: 0,
        hour: 5,
        a: 9_000,
    };
    for version in Version::ALL {
        let file = case.clone().in_version(version).to_bytes();
        let before = settled(&file, &[], 0).unwrap();
        let after = settled(&apply(&file, &change).unwrap(), &[], 0).unwrap();
        assert!(keeps_demand_3(&before, &after));
        assert_eq!(before.0[0].mitigated.0, 0b11_1111_1100_0000_0000);
        assert_eq!(after.0[0].mitigated.0, 0b00_0001_1111_1110_0000);
    }
}

#[test]
fn higher_is_unsigned_or_signed_by_kind() {
    let minus_one = u32::MAX;
    for kind in [1, 2] {
        assert!(is_worse(kind, 0, 5, minus_one));
        assert!(!is_worse(kind, 0, minus_one, 5));
        assert!(!is_worse(kind, 0, 5, 5));
    }
    assert!(!is_worse(3, 0, 5, 6));
    assert!(is_worse(4, 0, minus_one, 5));
    assert!(!is_worse(4, 0, 5, minus_one));
    assert!(is_worse(4, 8, 5, 4));
    assert!(!is_worse(4, 8, 5, 6));
}

#[test]
fn a_past_entry_moves_the_events() {
    let mut random = Random::new(9);
    for place in 0..100 {
        let wanted = Wanted::every_kind().in_version(Version::ALL[place % 2]);
        let case = case(&mut random, wanted).case;
        add_past_entries(&case);
        if case.version == Version::One {
            add_past_entries(&case.in_version(Version::Two));
        }
    }
}

/// A past entry at every place of a case, and past the end.
fn add_past_entries(case: &Case) {
    let file = case.to_bytes();
    let entry = Past::of_day(3, Kind::WITHHELD, Market::DAY_AHEAD, 1_977);
    for place in 0..=case.past.len() {
        let mut expected = case.clone();
        expected.past.insert(place, entry);
        let changed = apply(&file, &Change::PastEntry { place, entry }).unwrap();
        assert_eq!(changed, expected.to_bytes());
        assert_eq!(u32_at(&changed, 24), u32_at(&file, 24) + 12);
        assert_eq!(section_place(&changed, 3).0, section_place(&file, 3).0 + 12);
    }
    let place = case.past.len() + 1;
    assert_eq!(apply(&file, &Change::PastEntry { place, entry }), None);
}

#[test]
fn past_entries_have_their_days_period_and_stand_at_the_edges_of_windows() {
    let mut random = Random::new(25);
    let (mut entries, mut first_days, mut days_before) = (0, 0, 0);
    for _ in 0..400 {
        let generated = case(&mut random, Wanted::every_kind());
        let fuel = generated.case.events.iter();
        let fuel = fuel.filter(|event| event.kind() == Kind::FUEL);
        let firsts: Vec<u32> = fuel.map(|event| window_start(event.day)).collect();
        let (list, _) = random_changes(&generated.input().file, 40, &mut random);
        for change in list {
            let Change::PastEntry { entry, .. } = change else {
                continue;
            };
            assert!(entry.day < FIRST_DAY_BEYOND);
            assert_eq!(entry.period, period_of(entry.day));
            entries += 1;
            if entry.kind == Kind::FUEL {
                first_days += usize::from(firsts.contains(&entry.day));
                days_before += usize::from(firsts.contains(&(entry.day + 1)));
            }
        }
    }
    println!("{entries} entries, {first_days} on first days, {days_before} on days before");
    assert!(entries > 1_000 && first_days > 100 && days_before > 50);
}

/// A withheld event with this a in hour 3.
fn withheld(version: Version, a: u32) -> Vec<u8> {
    let event = Event::withheld(8_000, Market::DAY_AHEAD, NUMBER, &[(3, a, 0)]);
    with_event(event).in_version(version).to_bytes()
}

#[test]
fn an_hour_change_is_made_against_what_stands_there() {
    let hour = |a| Change::Hour {
        event: 0,
        hour: 3,
        a,
    };
    for version in Version::ALL {
        let file = withheld(version, 500);
        assert_eq!(apply(&file, &hour(500)), None);
        assert_eq!(apply(&file, &hour(499)), None);
        let once = apply(&file, &hour(501)).unwrap();
        assert_eq!(once, withheld(version, 501));
        assert_eq!(apply(&once, &hour(501)), None);
        assert!(apply(&once, &hour(502)).is_some());
        // A fuel event has no such change.
        let fuel = Event::fuel(8_000, Market::DAY_AHEAD, NUMBER, (0, 0, 0), &[]);
        let fuel = with_event(fuel).in_version(version).to_bytes();
        assert_eq!(apply(&fuel, &hour(1)), None);
    }
}

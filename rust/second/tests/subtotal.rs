//! The subtotals of fuel events: figures worked by hand, and generated cases beside E.

mod common;

use std::collections::BTreeMap;

use cases::case::EVERY_HOUR;
use cases::generator::any_case_in;
use cases::{Case, Conduct, Event, Generated, Kind, Market, Random, Version};
use common::version_2::{Version2, copy_of};
use common::{reference, rows_of, unit};
use second::{SettledCase, fuel_party_days, subtotal};

/// What the call gives for each of so many events.
fn of_each(file: &[u8], events: usize) -> Vec<Result<i64, u8>> {
    (0..events).map(|event| subtotal(file, event)).collect()
}

/// The same of all events of a case, whose version 2 copy gives the same.
#[track_caller]
fn subtotals(case: &Case) -> Vec<Result<i64, u8>> {
    let (file, events) = (case.to_bytes(), case.events.len());
    let each = of_each(&file, events);
    assert_eq!(of_each(&copy_of(&file), events), each);
    each
}

/// E of each party-day of a case.
fn e_of(case: &Case) -> Vec<i64> {
    let days = fuel_party_days(&case.to_bytes(), &[]).unwrap();
    days.iter().map(|day| day.e).collect()
}

/// One party-day of three plants, unit 13 with this P.
fn three_plants(inaccurate: u32) -> Case {
    let fuel =
        |unit, changes, cells: &[_]| Event::fuel(8_000, Market::DAY_AHEAD, unit, changes, cells);
    Case {
        units: vec![unit(12, 7), unit(13, 7), unit(14, 7)],
        events: vec![
            fuel(
                12,
                (0b10_0001, -3_000, 77_777),
                &[
                    (0, 200, 150),
                    (3, 40, -25),
                    (5, 10, -700),
                    (9, 50_000, 1_000_000),
                ],
            ),
            fuel(
                13,
                (inaccurate, 1_250, 0),
                &[(0, 30, -45), (3, 100, 60), (5, 7, 11), (23, 9, 9)],
            ),
            fuel(
                14,
                (0, -40, -5),
                &[(0, 1, 1), (3, 8, -900), (5, 0, 999_999), (9, 50_000, -7)],
            ),
        ],
        ..Case::default()
    }
}

#[test]
fn three_plants_by_hand() {
    // P of unit 12 has hours 0 and 5, that of 13 hour 3, that of 14 none: union hours 0, 3 and 5.
    let case = three_plants(0b00_1000);
    let rows = rows_of(&case, &[]);
    assert!(rows.iter().all(|row| row.flags.0 == 0b10_1001));
    // 12: 10 × (−3,000) + 200 × 150 + 40 × (−25) + 10 × (−700) = −30,000 + 30,000 − 1,000 − 7,000
    // 13: 10 × 1,250 + 30 × (−45) + 100 × 60 + 7 × 11 = 12,500 − 1,350 + 6,000 + 77
    // 14: 10 × (−40) + 1 × 1 + 8 × (−900) + 0 × 999,999 = −400 + 1 − 7,200 + 0
    // R, and hours 9 and 23, have no part in it.
    assert_eq!(subtotals(&case), [Ok(-8_000), Ok(17_227), Ok(-7_599)]);
    // −8,000 + 17,227 − 7,599
    assert_eq!(e_of(&case), [1_628]);
    // Without hour 3 in P of 13 its term goes from all three:
    // −8,000 + 1,000; 17,227 − 6,000; −7,599 + 7,200.
    let case = three_plants(0);
    assert_eq!(subtotals(&case), [Ok(-7_000), Ok(11_227), Ok(-399)]);
    assert_eq!(e_of(&case), [3_828]);
}

#[test]
fn the_largest_figures() {
    let hours = |price| -> Vec<_> { (0..24).map(|hour| (hour, 50_000, price)).collect() };
    let fuel =
        |unit, p, q, price| Event::fuel(9, Market::REAL_TIME, unit, (p, q, 0), &hours(price));
    let case = Case {
        units: vec![unit(12, 7), unit(13, 7), unit(14, 7)],
        events: vec![
            fuel(12, EVERY_HOUR, -1_000_000_000, -1_000_000),
            fuel(13, 0, 1_000_000_000, 1_000_000),
            fuel(14, 0, -1_000_000_000, 1_000_000),
        ],
        ..Case::default()
    };
    // 10 × 1,000,000,000 = 10,000,000,000 and 24 × 50,000 × 1,000,000 = 1,200,000,000,000.
    let expected = [-1_210_000_000_000, 1_210_000_000_000, 1_190_000_000_000];
    assert_eq!(subtotals(&case), expected.map(Ok));
    assert_eq!(e_of(&case), [1_190_000_000_000]);
}

/// A fuel event with P in one hour. Its a × b is 10^h in hour h, so that the digits of its subtotal are its union hours.
fn in_hour(day: u32, market: Market, unit: u32, hour: u32) -> Event {
    let cells: [_; 7] = std::array::from_fn(|hour| (hour, 1, 10_i32.pow(hour as u32)));
    Event::fuel(day, market, unit, (1 << hour, 0, 0), &cells)
}

/// Fuel events no two of which are of one party-day, and between them other kinds with a P; 14 is of another group.
fn different_party_days() -> Case {
    let (day_ahead, real_time) = (Market::DAY_AHEAD, Market::REAL_TIME);
    let withheld = Event::withheld(8_000, day_ahead, 13, &[]);
    let dispatch = Event::dispatch(8_000, 12, &[]);
    let bids = Event::bids(8_000, day_ahead, 13, 0, 0, &[]);
    Case {
        units: vec![unit(12, 7), unit(13, 7), unit(14, 8)],
        references: vec![reference(13, 0, 1)],
        events: vec![
            in_hour(7_999, day_ahead, 13, 1),
            withheld.with_shadow_price(1 << 2),
            dispatch.with_shadow_price(1 << 2),
            in_hour(8_000, day_ahead, 12, 0),
            in_hour(8_000, day_ahead, 14, 3),
            in_hour(8_000, real_time, 13, 4),
            bids.with_shadow_price(1 << 2),
            in_hour(8_001, day_ahead, 13, 5),
        ],
        ..Case::default()
    }
}

#[test]
fn other_days_markets_groups_and_kinds_have_no_part() {
    let mut case = different_party_days();
    let mut expected = vec![
        Ok(10),
        Err(10),
        Err(10),
        Ok(1),
        Ok(1_000),
        Ok(10_000),
        Err(10),
        Ok(100_000),
    ];
    assert_eq!(subtotals(&case), expected);
    // Unit 13 on the party-day of 12 adds its hour 6 to that one alone.
    case.events
        .insert(4, in_hour(8_000, Market::DAY_AHEAD, 13, 6));
    expected[3] = Ok(1_000_001);
    expected.insert(4, Ok(1_000_001));
    assert_eq!(subtotals(&case), expected);
    // 12, 65,548 and 131,084 have the same lower two bytes.
    let alike = |unit: u16| 12 + 65_536 * u32::from(unit - 12);
    let file = Version2::of(&case.to_bytes(), alike).to_bytes();
    assert_eq!(of_each(&file, case.events.len()), expected);
}

#[test]
fn guarantee_payments_count_without_union_hours() {
    let with_last_p = |p| {
        let fuel = |unit, p, q| {
            let cells = [(0, 50_000, 1_000_000), (23, 3, -3)];
            Event::fuel(5, Market::REAL_TIME, unit, (p, q, 0), &cells)
        };
        Case {
            units: vec![unit(12, 7), unit(13, 7), unit(14, 7)],
            events: vec![fuel(12, 0, 700_000), fuel(13, 0, -41), fuel(14, p, 0)],
            ..Case::default()
        }
    };
    // 10 × 700,000, 10 × (−41) and 10 × 0.
    let case = with_last_p(0);
    assert_eq!(subtotals(&case), [Ok(7_000_000), Ok(-410), Ok(0)]);
    assert_eq!(e_of(&case), [6_999_590]);
    // With hour 23 in P of the last, 3 × (−3) is added to each.
    let case = with_last_p(1 << 23);
    assert_eq!(subtotals(&case), [Ok(6_999_991), Ok(-419), Ok(-9)]);
    assert_eq!(e_of(&case), [6_999_563]);
}

/// What the generated cases of a version had.
#[derive(Debug, Default)]
struct Seen {
    party_days: usize,
    /// Party-days of two or more events.
    of_several_events: usize,
    /// Events to which their own P gives another figure.
    other_by_own_hours: usize,
    negative: usize,
}

/// The figure of a fuel event by the hours of its own P.
fn by_own_hours(event: &Event) -> i64 {
    let Conduct::Fuel {
        inaccurate,
        guarantee_change,
        hours,
        ..
    } = event.conduct
    else {
        panic!("a fuel event");
    };
    let mut figure = 10 * i64::from(guarantee_change);
    for (hour, cell) in hours.iter().enumerate() {
        if inaccurate >> hour & 1 == 1 {
            figure += i64::from(cell.energy) * i64::from(cell.price_change);
        }
    }
    figure
}

/// Adds the subtotals of each party-day of a case, and compares with E.
fn add_up(generated: &Generated, seen: &mut Seen) {
    let (case, input) = (&generated.case, generated.input());
    let settled = SettledCase::of(&input.file, &input.correction).unwrap();
    let groups = case.units.iter().map(|unit| (unit.unit, unit.group));
    let groups: BTreeMap<u32, u16> = groups.collect();
    let mut party_days: BTreeMap<_, Vec<i64>> = BTreeMap::new();
    for (place, event) in case.events.iter().enumerate() {
        let figure = settled.subtotal(place);
        if event.kind() != Kind::FUEL {
            assert_eq!(figure, Err(10));
            continue;
        }
        assert_eq!(subtotal(&input.file, place), figure);
        let figure = figure.unwrap();
        let party_day = (event.day, event.market.0, groups[&event.unit]);
        party_days.entry(party_day).or_default().push(figure);
        seen.other_by_own_hours += usize::from(figure != by_own_hours(event));
        seen.negative += usize::from(figure < 0);
    }
    seen.party_days += party_days.len();
    let several = party_days.values().filter(|figures| figures.len() >= 2);
    seen.of_several_events += several.count();
    let sums = party_days
        .into_iter()
        .map(|(party_day, figures)| (party_day, figures.iter().sum::<i64>()));
    let e = fuel_party_days(&input.file, &[]).unwrap();
    let e = e
        .iter()
        .map(|day| ((day.day, day.market, day.group), day.e));
    assert_eq!(sums.collect::<Vec<_>>(), e.collect::<Vec<_>>());
}

fn add_up_generated_cases(version: Version) {
    let mut random = Random::new(50);
    let mut seen = Seen::default();
    for _ in 0..500 {
        add_up(&any_case_in(version, &mut random), &mut seen);
    }
    println!("{version:?}: {seen:?}");
    assert!(seen.party_days >= 1_000, "{seen:?}");
    assert!(seen.of_several_events >= 300, "{seen:?}");
    assert!(seen.other_by_own_hours >= 300, "{seen:?}");
    assert!(seen.negative >= 100, "{seen:?}");
}

#[test]
fn generated_subtotals_add_to_e() {
    add_up_generated_cases(Version::One);
}

#[test]
fn generated_subtotals_of_version_2_add_to_e() {
    add_up_generated_cases(Version::Two);
}

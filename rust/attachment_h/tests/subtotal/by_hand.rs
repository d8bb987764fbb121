//! Subtotals worked out with a pencil, and the largest there can be.

use attachment_h::{Component, Market, Refused, penalty_working};
use cases::case::EVERY_HOUR;
use cases::{Case, Event, Generated, Reference, Unit};

use crate::{agreed, files};

fn unit(unit: u32, group: u16) -> Unit {
    Unit {
        unit,
        group,
        capability: 5_000,
        ..Unit::default()
    }
}

/// A case with these events, brought into their order.
fn case(units: &[Unit], events: &[Event]) -> Generated {
    let mut case = Case {
        units: units.to_vec(),
        events: events.to_vec(),
        ..Case::default()
    };
    case.sort_events();
    Generated {
        case,
        correction: Vec::new(),
    }
}

/// The answers for all events of a case, in both versions.
fn subtotals(generated: &Generated) -> Vec<Result<i64, Refused>> {
    let files = files(generated);
    assert_eq!(files.len(), 2);
    (0..generated.case.events.len())
        .map(|event| agreed(&files, event, "by hand"))
        .collect()
}

/// E of the party-day of an event.
fn e_of(generated: &Generated, event: usize) -> i64 {
    let worked = penalty_working(&generated.input().file, &[], event);
    worked.expect("accepted").e()
}

const HOUR_8: u32 = 1 << 8;
const HOUR_9: u32 = 1 << 9;
const HOUR_10: u32 = 1 << 10;

/// Day-Ahead fuel data of units 12, 13 and 14 of group 7 on day 8,000, with figures in hours 8, 9 and 10.
fn three_plants() -> [Event; 3] {
    let fuel = |unit, changes, cells: &[(usize, u32, i32)]| {
        Event::fuel(8_000, Market::DAY_AHEAD, unit, changes, cells)
    };
    let of_12 = [(8, 1_000, 700), (9, 200, -50), (10, 999, 999)];
    let of_13 = [(8, 10, -3), (9, 400, -1_100), (10, 5, 5)];
    let of_14 = [(8, 7, 11), (9, 3, -2), (10, 100, 100)];
    [
        fuel(12, (HOUR_8, 300_000, -100), &of_12),
        fuel(13, (HOUR_9, -100_000, 600), &of_13),
        fuel(14, (0, 0, 5), &of_14),
    ]
}

#[test]
fn three_plants_of_a_party_day() {
    let units = [unit(12, 7), unit(13, 7), unit(14, 7)];
    let generated = case(&units, &three_plants());
    // The union is hours 8 and 9, though no plant has both and unit 14 has neither; hour 10 is in none.
    let expected = [
        // 10 × 300,000 + 700,000 − 10,000
        Ok(3_690_000),
        // 10 × −100,000 − 30 − 440,000
        Ok(-1_440_030),
        // 77 − 6
        Ok(71),
    ];
    assert_eq!(subtotals(&generated), expected);
    for event in 0..3 {
        assert_eq!(e_of(&generated, event), 2_250_041);
    }
}

#[test]
fn hours_of_others_are_not_in_the_union() {
    // Hour 10 is in P of another group, market, day and kind: none of them is of the party-day.
    let cells = [(10, 20, 3), (8, 9, 9)];
    let (day_ahead, real_time) = (Market::DAY_AHEAD, Market::REAL_TIME);
    let of_20 = Event::fuel(8_000, day_ahead, 20, (HOUR_10, 5, 0), &cells);
    let of_real_time = Event::fuel(8_000, real_time, 12, (HOUR_10, -7, 0), &cells);
    let of_the_next_day = Event::fuel(8_001, day_ahead, 12, (HOUR_10, 0, 0), &cells);
    let withheld = Event::withheld(8_000, day_ahead, 12, &[]).with_shadow_price(EVERY_HOUR);
    let dispatch = Event::dispatch(8_000, 12, &[]).with_shadow_price(EVERY_HOUR);
    let others = [of_20, of_real_time, of_the_next_day, withheld, dispatch];
    let units = [unit(12, 7), unit(13, 7), unit(14, 7), unit(20, 8)];
    let generated = case(&units, &[&three_plants()[..], &others].concat());
    let expected = [
        // Kinds 1 and 2 of day 8,000.
        Err(Refused(10)),
        Err(Refused(10)),
        Ok(3_690_000),
        Ok(-1_440_030),
        Ok(71),
        // Unit 20: 10 × 5 + 20 × 3. Real-Time: 10 × −7 + 20 × 3. The next day: 20 × 3.
        Ok(110),
        Ok(-10),
        Ok(60),
    ];
    assert_eq!(subtotals(&generated), expected);
    let es = [2, 3, 4, 5, 6, 7].map(|event| e_of(&generated, event));
    assert_eq!(es, [2_250_041, 2_250_041, 2_250_041, 110, -10, 60]);
}

#[test]
fn an_empty_union_leaves_the_guarantee_payment() {
    let cells = [(0, 50_000, 1_000_000), (23, 50_000, -1)];
    let fuel = |unit, change| {
        let changes = (0, change, 0);
        Event::fuel(0, Market::REAL_TIME, unit, changes, &cells)
    };
    let units = [unit(0, 0), unit(1, 0), unit(2, 0)];
    let generated = case(&units, &[fuel(0, -1), fuel(1, 1), fuel(2, 0)]);
    assert_eq!(subtotals(&generated), [Ok(-10), Ok(10), Ok(0)]);
}

#[test]
fn each_hour_of_the_day() {
    // 1 × −1 in every hour, and P has one of them, of the event itself or of the other one.
    let cells: [_; 24] = std::array::from_fn(|hour| (hour, 1, -1));
    for hour in 0..24 {
        let fuel = |unit, mask| {
            let changes = (mask, 0, 0);
            Event::fuel(36_524, Market::DAY_AHEAD, unit, changes, &cells)
        };
        let units = [unit(7, 65_535), unit(65_535, 65_535)];
        let generated = case(&units, &[fuel(7, 1 << hour), fuel(65_535, 0)]);
        assert_eq!(subtotals(&generated), [Ok(-1), Ok(-1)], "hour {hour}");
    }
}

#[test]
fn largest_figures() {
    // 10 × 1,000,000,000 and 24 × 50,000 × 1,000,000, each up or down.
    for (q, b, figure) in [
        (1, 1, 1_210_000_000_000),
        (-1, -1, -1_210_000_000_000),
        (1, -1, -1_190_000_000_000),
        (-1, 1, 1_190_000_000_000),
    ] {
        let changes = (EVERY_HOUR, q * 1_000_000_000, -1_000_000_000);
        let cells: [_; 24] = std::array::from_fn(|hour| (hour, 50_000, b * 1_000_000));
        let units: Vec<Unit> = (0..64).map(|number| unit(number, 7)).collect();
        let events: Vec<Event> = (0..64)
            .map(|unit| Event::fuel(8_000, Market::DAY_AHEAD, unit, changes, &cells))
            .collect();
        let generated = case(&units, &events);
        assert_eq!(subtotals(&generated), [Ok(figure); 64]);
        assert_eq!(e_of(&generated, 63), 64 * figure);
    }
}

#[test]
fn other_kinds() {
    let bids = |market, component| Event::bids(8_000, market, 12, component, 0, &[]);
    let mut events = vec![Event::dispatch(8_000, 12, &[])];
    for market in Market::ALL {
        events.push(Event::withheld(8_000, market, 12, &[]));
        events.push(Event::fuel(8_000, market, 12, (0, -3, 0), &[]));
        events.extend((0..9).map(|component| bids(market, component)));
    }
    let mut generated = case(&[unit(12, 7)], &events);
    generated.case.references = (0..9)
        .map(|component| Reference {
            unit: 12,
            component: Component(component),
            value: 1_000,
        })
        .collect();
    // The kinds in order: two withheld events and a dispatch, the fuel events, the bids.
    let expected: Vec<Result<i64, Refused>> = (0..23)
        .map(|event| match event {
            3 | 4 => Ok(-30),
            _ => Err(Refused(10)),
        })
        .collect();
    assert_eq!(subtotals(&generated), expected);
}

#[test]
fn numbers_of_no_event() {
    let fuel = Event::fuel(8_000, Market::DAY_AHEAD, 12, (0, 3, 0), &[]);
    let one = files(&case(&[unit(12, 7)], &[fuel]));
    assert_eq!(agreed(&one, 0, "one event"), Ok(30));
    let none = [case(&[unit(12, 7)], &[]), case(&[], &[])].map(|case| files(&case));
    for files in &none {
        assert_eq!(agreed(files, 0, "no events"), Err(Refused(10)));
    }
    // Of the powers of 2 some are 0 in 32 bits, and 2^61 and 2^62 times the width of an event are 0 in 64.
    let powers = [1, 8, 16, 31, 32, 61, 62, 63].map(|power| 1_usize << power);
    for number in powers.into_iter().chain([1, 199, 200, usize::MAX]) {
        for files in none.iter().chain([&one]) {
            let answer = agreed(files, number, "no event");
            assert_eq!(answer, Err(Refused(10)), "number {number}");
        }
    }
}

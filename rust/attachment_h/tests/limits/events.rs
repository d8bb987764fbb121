//! The fields of an event.

use attachment_h::{Component, Kind};
use cases::calendar::period_of;
use cases::case::{CELL_BYTES, EVENT_HEAD_BYTES, Section, put_u16, put_u32};
use cases::{Case, Conduct, Event, Input, Market};

use crate::{
    Checks, PERIODS, at_most, days, name, one, place, plain_events, reference, signed, unit,
};

/// The head of an event: every field up to its hour cells.
fn head(checks: &mut Checks, input: &Input, at: usize, event: &Event, what: &str) {
    let (_, Kind(kind), Market(market), _, _) = event.order();
    checks.field(
        input,
        at,
        1,
        &[(0, 10), (5, 10), (128, 10), (255, 10)],
        what,
    );
    let other_market = match kind {
        2 => 10,
        _ => 0,
    };
    let markets = [
        (market.into(), 0),
        ((1 - market).into(), other_market),
        (2, 10),
        (128, 10),
        (255, 10),
    ];
    checks.field(input, at + 1, 1, &markets, &format!("{what}, market"));
    // Unit 20 is listed and has no reference.
    let unreferenced = if kind == 4 { 14 } else { 0 };
    let units = [
        (12, 0),
        (13, 0),
        (20, unreferenced),
        (0, 12),
        (11, 12),
        (14, 12),
        (99, 12),
        (12 + 256, 12),
        (65_535, 12),
    ];
    checks.field(input, at + 2, 2, &units, &format!("{what}, unit"));
    checks.field(input, at + 4, 2, &PERIODS, &format!("{what}, period"));
    for component in 0..256 {
        let number = match (kind, component) {
            (_, 0) | (4, 0..=8) => 0,
            _ => 10,
        };
        checks.field(input, at + 6, 1, &[(component, number)], what);
    }
    let impact = if kind < 3 { 0 } else { 10 };
    let impacts = [(0, 0), (1, impact), (2, 10), (3, 10), (128, 10), (255, 10)];
    checks.field(input, at + 7, 1, &impacts, &format!("{what}, impact"));
    checks.field(input, at + 8, 4, &days(10), &format!("{what}, day"));
    let mask = [(0, 0), (0xFF_FFFF, 0), (0xFFFF_FFFF, 10)];
    checks.field(input, at + 12, 4, &mask, &format!("{what}, P"));
    checks.bits(input, at + 12, 4, 24..32, 10, &format!("{what}, P"));
    match kind {
        1 | 2 => {
            checks.zero(input, at + 16, 4, 10, &format!("{what}, Q"));
            checks.zero(input, at + 20, 4, 10, &format!("{what}, R"));
        }
        3 => {
            let change = signed(1_000_000_000, 10);
            checks.field(input, at + 16, 4, &change, &format!("{what}, Q"));
            if event.market == Market::DAY_AHEAD {
                checks.field(input, at + 20, 4, &change, &format!("{what}, R"));
            } else {
                checks.zero(input, at + 20, 4, 10, &format!("{what}, R"));
                checks.field(input, at + 20, 4, &[(-1, 10)], &format!("{what}, R"));
            }
        }
        _ => {
            checks.field(input, at + 16, 4, &mask, &format!("{what}, Q"));
            checks.bits(input, at + 16, 4, 24..32, 10, &format!("{what}, Q"));
            let hours = at_most(24, 10);
            checks.field(input, at + 20, 4, &hours, &format!("{what}, R"));
        }
    }
}

/// The 24 hour cells of an event.
fn cells(checks: &mut Checks, input: &Input, at: usize, event: &Event, what: &str) {
    let (_, Kind(kind), _, _, Component(component)) = event.order();
    let bid = |low: i64, high: i64| {
        vec![
            (low, 0),
            (0, 0),
            (high, 0),
            (low - 1, 10),
            (high + 1, 10),
            (i32::MIN.into(), 10),
            (i32::MAX.into(), 10),
        ]
    };
    let price = signed(1_000_000, 10).to_vec();
    // 13 comes after the ranges: every a of kinds 1 and 2 can be read.
    let within_capability = at_most(5_000, 13).to_vec();
    let (a, b) = match (kind, component) {
        (1, _) => (within_capability, price),
        (2, _) => (within_capability, at_most(100_000_000, 10).to_vec()),
        (3, _) => (at_most(50_000, 10).to_vec(), price),
        (_, 0 | 1) => (bid(-1_000_000, 1_000_000), price),
        (_, 2) => (bid(0, 1_000_000), price),
        _ => (bid(0, 1_000_000_000), price),
    };
    for hour in 0..24 {
        let cell = at + EVENT_HEAD_BYTES + CELL_BYTES * hour;
        checks.field(input, cell, 4, &a, &format!("{what}, a of hour {hour}"));
        checks.field(input, cell + 4, 4, &b, &format!("{what}, b of hour {hour}"));
        let what = format!("{what}, m of hour {hour}");
        if kind == 4 {
            checks.field(input, cell + 8, 4, &at_most(50_000, 10), &what);
        } else {
            checks.zero(input, cell + 8, 4, 10, &what);
        }
    }
}

#[test]
fn fields_of_an_event() {
    let mut checks = Checks::default();
    for event in plain_events() {
        let input = one(event);
        let at = place(&input, Section::Events, 0);
        head(&mut checks, &input, at, &event, &name(&event));
        cells(&mut checks, &input, at, &event, &name(&event));
    }
    checks.done(43_000, "fields of an event");
}

/// 200 events of each kind, 20 days apart: the kind's name and the case.
fn two_hundred_events() -> [(Kind, String, Input); 4] {
    [
        Event::withheld(8_000, Market::DAY_AHEAD, 12, &[]),
        Event::dispatch(8_000, 12, &[]),
        Event::fuel(8_000, Market::REAL_TIME, 12, (0, 0, 0), &[]),
        Event::bids(8_000, Market::DAY_AHEAD, 12, 1, 0, &[]),
    ]
    .map(|event| {
        let of_day = |day| Event {
            day,
            period: period_of(day),
            ..event
        };
        let case = Case {
            units: [5, 12].map(unit).to_vec(),
            references: vec![reference(12, 1)],
            events: (0..200).map(|place| of_day(20 * place)).collect(),
            ..Case::default()
        };
        (event.kind(), name(&event), Input::new(&case, &[]))
    })
}

#[test]
fn fields_of_the_first_and_last_of_200_events() {
    let mut checks = Checks::default();
    for (kind, name, input) in two_hundred_events() {
        for record in [0, 99, 199] {
            let at = place(&input, Section::Events, record);
            let what = format!("{name}, event {record} of 200");
            checks.field(&input, at, 1, &[(0, 10), (5, 10)], &what);
            checks.field(&input, at + 1, 1, &[(2, 10)], &what);
            checks.field(&input, at + 2, 2, &[(99, 12)], &what);
            checks.field(&input, at + 4, 2, &[(65_535, 19)], &what);
            checks.field(&input, at + 12, 4, &[(1 << 24, 10)], &what);
            let cell = at + EVENT_HEAD_BYTES + CELL_BYTES * 23;
            let number = if kind < Kind::FUEL { 13 } else { 10 };
            checks.field(&input, cell, 4, &[(1 << 31, number)], &what);
            checks.field(&input, cell + 4, 4, &[(1 << 31, 10)], &what);
            checks.field(&input, cell + 8, 4, &[(50_001, 10)], &what);
        }
    }
    checks.done(216, "fields of the first and last of 200 events");
}

#[test]
fn days_of_200_events() {
    // Each day is above the one before and below the one after, and in its period: event 99 from 1,947 to 2,130, event 199
    // from 3,957 to 4,137.
    let mut checks = Checks::default();
    let between = [
        (1_946, 19),
        (1_947, 11),
        (1_960, 11),
        (1_961, 0),
        (1_999, 0),
        (2_000, 11),
        (2_130, 11),
        (2_131, 19),
        (36_525, 18),
        (1_000_001, 10),
    ];
    let last = [
        (0, 19),
        (3_956, 19),
        (3_957, 11),
        (3_960, 11),
        (3_961, 0),
        (4_137, 0),
        (4_138, 19),
        (36_525, 18),
    ];
    for (_, name, input) in two_hundred_events() {
        for (record, days) in [(99, &between[..]), (199, &last[..])] {
            let at = place(&input, Section::Events, record);
            checks.field(&input, at + 8, 4, days, &name);
        }
    }
    checks.done(144, "days of 200 events");
}

#[test]
fn unreadable_words_of_other_kinds() {
    // An a that kinds 1 and 2 may have is no bid and no fuel energy.
    let mut checks = Checks::default();
    for event in plain_events() {
        let input = one(event);
        let at = place(&input, Section::Events, 0);
        let cell = at + EVENT_HEAD_BYTES + CELL_BYTES * 7;
        let mut changed = input.clone();
        put_u32(&mut changed.file, cell, u32::MAX);
        put_u16(&mut changed.file, at + 2, 99);
        let number = match event.conduct {
            // 12 comes before 13.
            Conduct::Withheld { .. } | Conduct::Dispatch { .. } => 12,
            // −1 is a bid of components 0 and 1 alone.
            Conduct::Bids {
                component: Component(0 | 1),
                ..
            } => 12,
            _ => 10,
        };
        checks.expect(&changed, number, &name(&event));
    }
    checks.done(46, "unreadable words of other kinds");
}

//! Flags: the conduct tests (docs/RULES.md, F).

use cases::{Case, Event, Market, Unit};

use crate::common::{reference, rows_of, unit};

/// A unit of the largest capability, so that only the sums and the fixed lines count.
fn large(number: u32, group: u16) -> Unit {
    Unit {
        capability: 50_000,
        response_rate: 50_000,
        ..unit(number, group)
    }
}

/// A unit of group 7 with this capability.
fn with_capability(number: u32, capability: u32) -> Unit {
    Unit {
        capability,
        ..unit(number, 7)
    }
}

/// The flag masks of all events.
fn flag_masks(case: &Case) -> Vec<u32> {
    rows_of(case, &[]).iter().map(|row| row.flags.0).collect()
}

#[test]
fn an_hour_without_mw_is_flagged_by_the_group_sum() {
    // Units of 50,000 each, G 200,000: 20 × S > G from 10,001; S 2,001 is over 2,000.
    let mut case = Case {
        units: vec![large(1, 7), large(2, 7), large(3, 7), large(4, 7)],
        events: vec![
            Event::withheld(5, Market::DAY_AHEAD, 1, &[(0, 1_000, 100)]),
            Event::withheld(5, Market::DAY_AHEAD, 2, &[(0, 1_000, 100)]),
            Event::withheld(5, Market::DAY_AHEAD, 3, &[(0, 0, 100), (1, 0, 100)]),
        ],
        ..Case::default()
    };
    assert!(rows_of(&case, &[]).iter().all(|row| row.flags.0 == 0));
    let last = Event::withheld(5, Market::DAY_AHEAD, 4, &[(0, 1, 100)]);
    case.events.push(last);
    let rows = rows_of(&case, &[]);
    assert!(rows.iter().all(|row| row.flags.0 == 1));
    // The hour without MW makes an instance, with a penalty of 0: N3 goes 1, 2, 3, 4.
    let figures: Vec<_> = rows
        .iter()
        .map(|row| (row.n3, row.n2, row.multiplier.0, row.penalty.0))
        .collect();
    // 2 × 1,000 × 100 / 20; the same; 4 × 0; 6 × 1 × 100 / 20.
    assert_eq!(
        figures,
        [
            (1, 1, 2, 10_000),
            (2, 2, 2, 10_000),
            (3, 3, 4, 0),
            (4, 4, 6, 30)
        ]
    );
}

#[test]
fn withheld_tests_one_by_one() {
    // Hours: 10 × a > capability; a > 1,000; 20 × S > G; each at the line and one over it.
    // Unit 1 of 4,000, unit 2 of 50,000, G 54,000: 20 × S > G from S 2,701, S > 2,000 before that.
    let case = Case {
        units: vec![with_capability(1, 4_000), large(2, 7)],
        events: vec![
            Event::withheld(5, Market::DAY_AHEAD, 1, &[(0, 400, 0), (1, 401, 0)]),
            Event::withheld(5, Market::DAY_AHEAD, 2, &[(2, 1_000, 0), (3, 1_001, 0)]),
        ],
        ..Case::default()
    };
    // Hour 1: unit 1 alone. Hour 3: unit 2 alone.
    assert_eq!(flag_masks(&case), [0b0010, 0b1000]);
    // G 6,000 of units 1 and 2: 20 × 300 = 6,000 passes, 301 fails for both.
    let case = Case {
        units: vec![with_capability(1, 4_000), with_capability(2, 2_000)],
        events: vec![
            Event::withheld(5, Market::DAY_AHEAD, 1, &[(0, 200, 0), (1, 200, 0)]),
            Event::withheld(5, Market::DAY_AHEAD, 2, &[(0, 100, 0), (1, 101, 0)]),
        ],
        ..Case::default()
    };
    assert_eq!(flag_masks(&case), [0b10, 0b10]);
}

#[test]
fn group_capability_takes_every_listed_unit_and_the_sum_every_event() {
    // Unit 3 has no event and lies in a Constrained Area: G = 5,000 × 3 = 15,000, so
    // 20 × S > G from 751. S over 400 (impact 0, unflagged by itself) and 351 is 751.
    let mut case = Case {
        units: vec![
            unit(1, 7),
            unit(2, 7),
            Unit {
                area: 1,
                ..unit(3, 7)
            },
            unit(4, 8),
        ],
        events: vec![
            Event::withheld(5, Market::DAY_AHEAD, 1, &[(0, 400, 0)]).with_impact(0),
            Event::withheld(5, Market::DAY_AHEAD, 2, &[(0, 351, 0)]),
        ],
        ..Case::default()
    };
    let rows = rows_of(&case, &[]);
    assert_eq!([rows[0].flags.0, rows[1].flags.0], [1, 1]);
    // Impact 0: flagged, and no instance.
    assert_eq!((rows[0].multiplier.0, rows[0].n3, rows[0].n2), (0, 0, 0));
    assert_eq!((rows[1].multiplier.0, rows[1].n3, rows[1].n2), (2, 1, 1));
    case.events[1] = Event::withheld(5, Market::DAY_AHEAD, 2, &[(0, 350, 0)]);
    assert!(rows_of(&case, &[]).iter().all(|row| row.flags.0 == 0));
    another_is_not_added(case);
}

/// Another group, market, day or hour is not added.
fn another_is_not_added(mut case: Case) {
    for other in [
        Event::withheld(5, Market::DAY_AHEAD, 4, &[(0, 351, 0)]),
        Event::withheld(5, Market::REAL_TIME, 2, &[(0, 351, 0)]),
        Event::withheld(6, Market::DAY_AHEAD, 2, &[(0, 351, 0)]),
        Event::withheld(5, Market::DAY_AHEAD, 2, &[(1, 351, 0)]),
    ] {
        case.events[1] = other;
        // Unit 4 is alone in its group: 20 × 351 > 5,000.
        let expected = if other.unit == 4 { [0, 1] } else { [0, 0] };
        let rows = rows_of(&case, &[]);
        assert_eq!([rows[0].flags.0, rows[1].flags.0], expected, "{other:?}");
    }
}

#[test]
fn own_area_and_own_shadow_price_decide_what_is_tight() {
    // Unit 1 in area 1, unit 2 in area 0, both with the Shadow Price in hour 0 only.
    // S = 501 + 500 = 1,001 in both hours; G = 100,000 makes 20 × S > G from 5,001.
    let case = Case {
        units: vec![
            Unit {
                area: 1,
                ..large(1, 7)
            },
            large(2, 7),
        ],
        events: vec![
            Event::withheld(5, Market::DAY_AHEAD, 1, &[(0, 500, 0), (1, 500, 0)])
                .with_shadow_price(1),
            Event::withheld(5, Market::DAY_AHEAD, 2, &[(0, 501, 0), (1, 501, 0)])
                .with_shadow_price(1),
        ],
        ..Case::default()
    };
    let rows = rows_of(&case, &[]);
    // Unit 1, hour 0: 500 is not over 500, S 1,001 is over 1,000. Unit 2 is never tight.
    assert_eq!([rows[0].flags.0, rows[1].flags.0], [0b01, 0b00]);
    // The same in Real-Time, and for dispatch.
    let real_time = Case {
        events: vec![
            Event::withheld(5, Market::REAL_TIME, 1, &[(0, 500, 0), (1, 500, 0)])
                .with_shadow_price(1),
            Event::withheld(5, Market::REAL_TIME, 2, &[(0, 501, 0), (1, 501, 0)])
                .with_shadow_price(1),
            Event::dispatch(5, 1, &[(0, 500, 0), (1, 500, 0)]).with_shadow_price(1),
            Event::dispatch(5, 2, &[(0, 501, 0), (1, 501, 0)]).with_shadow_price(1),
        ],
        ..case
    };
    // Kind 2 has sums of its own: 1,001 again, not 2,002.
    assert_eq!(flag_masks(&real_time), [0b01, 0b00, 0b01, 0b00]);
}

/// A bid in hour 8.
fn bids(day: u32, market: Market, unit: u32, component: u8, bid: i32) -> Event {
    Event::bids(day, market, unit, component, 0, &[(8, bid, 0, 0)])
}

/// The flags of hour 8 of bids whose times all have the reference 100.
fn flags(mut events: Vec<Event>) -> Vec<u32> {
    events.sort_by_key(Event::order);
    let case = Case {
        units: vec![unit(1, 7), unit(2, 7)],
        references: [1, 2]
            .into_iter()
            .flat_map(|unit| (4..7).map(move |component| reference(unit, component, 100)))
            .collect(),
        events,
        ..Case::default()
    };
    rows_of(&case, &[])
        .iter()
        .map(|row| row.flags.0 >> 8 & 1)
        .collect()
}

#[test]
fn time_sum_takes_one_unit_day_market_and_hour() {
    // Increases 180, 180 and 1 add to 361.
    assert_eq!(
        flags(vec![
            bids(5, Market::DAY_AHEAD, 1, 4, 280),
            bids(5, Market::DAY_AHEAD, 1, 5, 280),
            bids(5, Market::DAY_AHEAD, 1, 6, 101),
        ]),
        [1, 1, 1]
    );
    // An increase of 300, over 180 by itself, is added too: 300 + 61 = 361.
    assert_eq!(
        flags(vec![
            bids(5, Market::DAY_AHEAD, 1, 4, 400),
            bids(5, Market::DAY_AHEAD, 1, 6, 161),
        ]),
        [1, 1]
    );
    assert_eq!(
        flags(vec![
            bids(5, Market::DAY_AHEAD, 1, 4, 400),
            bids(5, Market::DAY_AHEAD, 1, 6, 160),
        ]),
        [1, 0]
    );
    no_increase_is_not_flagged();
    another_time_is_not_added();
}

/// d = 0 and d < 0 are never flagged by the sum, and a decrease takes nothing off it.
fn no_increase_is_not_flagged() {
    assert_eq!(
        flags(vec![
            bids(5, Market::DAY_AHEAD, 1, 4, 600),
            bids(5, Market::DAY_AHEAD, 1, 5, 100),
            bids(5, Market::DAY_AHEAD, 1, 6, 0),
        ]),
        [1, 0, 0]
    );
    assert_eq!(
        flags(vec![
            bids(5, Market::DAY_AHEAD, 1, 4, 280),
            bids(5, Market::DAY_AHEAD, 1, 5, 281),
            bids(5, Market::DAY_AHEAD, 1, 6, 0),
        ]),
        [1, 1, 0]
    );
}

/// Another unit, day, market or hour is not added to 180 + 180 = 360.
fn another_time_is_not_added() {
    for other in [
        bids(5, Market::DAY_AHEAD, 2, 6, 101),
        bids(6, Market::DAY_AHEAD, 1, 6, 101),
        bids(5, Market::REAL_TIME, 1, 6, 101),
        Event::bids(5, Market::DAY_AHEAD, 1, 6, 0, &[(9, 101, 0, 0)]),
    ] {
        let events = vec![
            bids(5, Market::DAY_AHEAD, 1, 4, 280),
            bids(5, Market::DAY_AHEAD, 1, 5, 280),
            other,
        ];
        assert_eq!(flags(events), [0, 0, 0]);
    }
}

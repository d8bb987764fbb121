//! Party-days of many plants, larger than the generator makes them in small cases: every plant with its own P, and Q and b of
//! both signs and every size.

use attachment_h::Market;
use cases::{Case, Event, Generated, Random, Unit, Version};

/// Days of the events, in one capability period.
const DAYS: [u32; 2] = [8_000, 8_001];

/// The fuel data of 3 to 40 plants in one to three groups, on two days and in both markets.
pub fn many_plants(version: Version, random: &mut Random) -> Generated {
    let groups = 1 + random.below(3);
    let first = match version {
        Version::One => 12,
        Version::Two => 65_500,
    };
    let units: Vec<Unit> = (0..3 + random.below(38) as u32)
        .map(|place| Unit {
            unit: first + place,
            group: random.below(groups) as u16,
            capability: 1,
            ..Unit::default()
        })
        .collect();
    let mut events = Vec::new();
    for day in DAYS {
        for market in Market::ALL {
            for unit in &units {
                if random.chance(3, 4) {
                    events.push(fuel(random, day, market, unit.unit));
                }
            }
        }
    }
    let case = Case {
        version,
        units,
        events,
        ..Case::default()
    };
    Generated {
        case,
        correction: Vec::new(),
    }
}

/// A fuel event with any P, and a and b in every hour.
fn fuel(random: &mut Random, day: u32, market: Market, unit: u32) -> Event {
    let tcc_change = match market {
        Market::DAY_AHEAD => signed(random, 1_000_000_000),
        _ => 0,
    };
    let changes = (random.hours(), signed(random, 1_000_000_000), tcc_change);
    let cells: [_; 24] = std::array::from_fn(|hour| {
        let energy = signed(random, 50_000).unsigned_abs();
        (hour, energy, signed(random, 1_000_000))
    });
    Event::fuel(day, market, unit, changes, &cells)
}

/// A number within ±limit: at an end, next to 0, or anywhere.
fn signed(random: &mut Random, limit: i32) -> i32 {
    match random.below(4) {
        0 => random.pick(&[-limit, limit]),
        1 => random.pick(&[-1, 0, 1]),
        _ => random.between(-i64::from(limit), limit.into()) as i32,
    }
}

//! The figures of a random case: units, reference levels, past entries and the hours of events, at and next to every threshold.

use std::collections::BTreeSet;

use attachment_h::layout::HIGHEST_UNIT_NUMBER;
use attachment_h::{Component, Kind, Market};

use super::bid_limits;
use super::days::past_day;
use crate::calendar::FIRST_DAY_BEYOND;
use crate::case::{BidHour, Conduct, DispatchHour, FuelHour, Past, Unit, WithheldHour};
use crate::random::Random;

/// A unit of one of the groups, in a Constrained Area in so many of three.
pub fn unit(random: &mut Random, number: u32, groups: &[u16], area_chance: usize) -> Unit {
    let capability = match random.below(6) {
        0 => random.pick(&[1, 9, 10, 11, 50_000]),
        1 => random.pick(&[4_990, 5_000, 5_009, 5_010, 9_999, 10_000, 10_001]),
        2 => random.between(1, 50_000),
        _ => random.between(2_000, 30_000),
    };
    Unit {
        unit: number,
        group: random.pick(groups),
        area: u8::from(random.chance(area_chance, 3)),
        capability: capability as u32,
        response_rate: match random.below(4) {
            0 => random.pick(&[0, 1, 33, 34, 66, 67, 50_000]),
            1 => random.between(0, 3_400) as u32,
            _ => random.between(0, 80) as u32,
        },
        average_price: match random.below(4) {
            0 => random.pick(&[0, 1, 1_000_000]),
            1 => 5_000,
            _ => random.between(0, 20_000) as u32,
        },
        constrained_hours: match random.below(4) {
            0 => random.pick(&[0, 1, 8_784]),
            1 => 1_000,
            _ => random.between(0, 8_784) as u16,
        },
    }
}

/// Different unit numbers of version 2: such as two bytes hold beside such as they do not, some with the same two low
/// bytes as another.
pub fn six_digit_numbers(random: &mut Random, count: usize) -> BTreeSet<u32> {
    let mut numbers = BTreeSet::new();
    let mut last = 0;
    while numbers.len() < count {
        last = match random.below(6) {
            0 => random.below(100) as u32,
            1 => random.pick(&[
                0,
                255,
                256,
                65_535,
                65_536,
                65_537,
                HIGHEST_UNIT_NUMBER - 1,
                HIGHEST_UNIT_NUMBER,
            ]),
            2 | 3 => random.between(65_536, HIGHEST_UNIT_NUMBER.into()) as u32,
            4 => (last + 1).min(HIGHEST_UNIT_NUMBER),
            _ => (last & 0xFFFF) + ((random.below(15) as u32) << 16),
        };
        numbers.insert(last);
    }
    numbers
}

/// A reference level, often one where two parts of a test meet.
pub fn reference_value(random: &mut Random, component: Component) -> u32 {
    let value = match (component.0, random.below(3)) {
        (0..=2, 0) => random.pick(&[
            0, 1, 124, 125, 499, 500, 624, 625, 1_666, 1_667, 3_333, 3_334, 999_999, 1_000_000,
        ]),
        (0..=2, 1) => random.between(0, 1_000),
        (0..=2, _) => random.between(0, 8_000),
        (3, 0) => random.pick(&[0, 1, 333_333_333, 333_333_334, 1_000_000_000]),
        (3, _) => random.between(0, 5_000_000),
        (4..=6, 0) => random.pick(&[0, 1, 60, 999_999_819, 999_999_820, 1_000_000_000]),
        (4..=6, _) => random.between(0, 1_440),
        (_, 0) => random.pick(&[0, 1, 2, 3, 500_000_000, 500_000_001, 1_000_000_000]),
        _ => random.between(0, 2_000),
    };
    value as u32
}

/// A past entry in or near the windows of the events.
pub fn past_entry(random: &mut Random, groups: &[u16], days: &[u32]) -> Past {
    let group = if random.chance(1, 10) {
        random.between(0, 65_535) as u16
    } else {
        random.pick(groups)
    };
    let day = match random.below(8) {
        0 => random.below(FIRST_DAY_BEYOND as usize) as u32,
        _ => {
            let day = random.pick(days);
            past_day(random, day)
        }
    };
    let kind = random.pick(&[Kind::WITHHELD, Kind::WITHHELD, Kind::FUEL]);
    let market = random.pick(&[Market::DAY_AHEAD, Market::REAL_TIME]);
    Past::of_day(group, kind, market, day)
}

/// One of the candidates or next to it, brought into the limits.
fn near(random: &mut Random, candidates: &[i64], (low, high): (i64, i64)) -> i64 {
    let step = random.pick(&[-1, 0, 0, 1, 1]);
    (random.pick(candidates) + step).clamp(low, high)
}

/// How many of an event's hours have figures at a threshold.
fn density(random: &mut Random) -> usize {
    random.pick(&[0, 1, 3, 12, 24])
}

/// MW of kinds 1 and 2 in one hour, given the group's sum so far and the lines for one unit.
fn megawatts(
    random: &mut Random,
    capability: u32,
    sum: i64,
    own_lines: &[i64],
    sum_lines: &[i64],
) -> u32 {
    let capability = i64::from(capability);
    let value = match random.below(8) {
        0 => random.between(0, capability),
        1 => capability,
        2 => random.between(0, capability.min(300)),
        3 | 4 => {
            let lines: Vec<i64> = sum_lines.iter().map(|line| line - sum).collect();
            near(random, &lines, (0, capability))
        }
        5..=6 => near(random, own_lines, (0, capability)),
        _ => 0,
    };
    value as u32
}

/// A withheld event, its a added to the sums of its party-day.
pub fn withheld(
    random: &mut Random,
    unit: &Unit,
    group_capability: i64,
    impact: u8,
    sums: &mut [i64; 24],
) -> Conduct {
    let density = density(random);
    let own_lines = [i64::from(unit.capability) / 10, 500, 1_000];
    let sum_lines = [group_capability / 20, 1_000, 2_000];
    let mut hours = [WithheldHour::default(); 24];
    for (hour, sum) in hours.iter_mut().zip(sums) {
        if random.chance(density, 24) {
            hour.withheld = megawatts(random, unit.capability, *sum, &own_lines, &sum_lines);
        }
        *sum += i64::from(hour.withheld);
        hour.price = price(random);
    }
    Conduct::Withheld {
        impact,
        shadow_price: random.hours(),
        hours,
    }
}

/// A dispatch event, its a added to the sums of its party-day.
pub fn dispatch(random: &mut Random, unit: &Unit, impact: u8, sums: &mut [i64; 24]) -> Conduct {
    let density = density(random);
    let own_lines = [15 * i64::from(unit.response_rate), 500, 1_000];
    let sum_lines = [1_000, 2_000];
    let mut hours = [DispatchHour::default(); 24];
    for (hour, sum) in hours.iter_mut().zip(sums) {
        if random.chance(density, 24) {
            hour.undelivered = megawatts(random, unit.capability, *sum, &own_lines, &sum_lines);
        }
        *sum += i64::from(hour.undelivered);
        hour.added_revenue = match random.below(6) {
            0 => random.pick(&[0, 1, 100_000_000]),
            _ => random.between(0, 100_000) as u32,
        };
    }
    Conduct::Dispatch {
        impact,
        shadow_price: random.hours(),
        hours,
    }
}

fn price(random: &mut Random) -> i32 {
    match random.below(8) {
        0 => random.pick(&[-1_000_000, -1, 0, 1, 1_000_000]),
        1 => random.between(-5_000, 0) as i32,
        _ => random.between(0, 12_000) as i32,
    }
}

/// A fuel event; `exact` brings its party-day to a line of X.
pub fn fuel(
    random: &mut Random,
    market: Market,
    exact: bool,
    first: bool,
    not_negative: bool,
) -> Conduct {
    let mut inaccurate = random.hours();
    let mut hours = [FuelHour::default(); 24];
    let (mut guarantee_change, mut tcc_change) = (0, 0);
    if exact && first {
        // X at 10,000,000 and next to it: with M 2 or 3, by E or by T.
        let e: i64 = random.pick(&[
            5_000_000, 4_999_999, 4_999_990, 5_000_001, 3_333_333, 3_333_334, 0, 10,
        ]);
        let hour = random.below(24);
        inaccurate |= 1 << hour;
        hours[hour] = FuelHour {
            energy: 1,
            price_change: (e % 10) as i32,
        };
        guarantee_change = e / 10;
        if market == Market::DAY_AHEAD && e <= 10 {
            // 3 × 10 + 20 × 499,999 = 10,000,010; 2 × 0 + 20 × 499,999 = 9,999,980.
            tcc_change = random.pick(&[499_998, 499_999, 500_000, 500_001]);
        }
    } else if !exact {
        let large = random.chance(1, 6);
        guarantee_change = match random.below(4) {
            0 => 0,
            1 => random.between(-300_000, 300_000),
            2 if large => random.pick(&[-1_000_000_000, 1_000_000_000]),
            _ => random.between(300_000, 900_000),
        };
        if market == Market::DAY_AHEAD {
            tcc_change = match random.below(4) {
                0 => 0,
                1 if large => random.pick(&[-1_000_000_000, 1_000_000_000]),
                _ => random.between(-600_000, 900_000),
            };
        }
        for hour in &mut hours {
            *hour = match random.below(4) {
                0 => FuelHour::default(),
                1 if large => FuelHour {
                    energy: 50_000,
                    price_change: random.pick(&[-1_000_000, 1_000_000]),
                },
                _ => FuelHour {
                    energy: random.between(0, 900) as u32,
                    price_change: random.between(-700, 900) as i32,
                },
            };
        }
    }
    if not_negative {
        guarantee_change = guarantee_change.abs();
        for hour in &mut hours {
            hour.price_change = hour.price_change.abs();
        }
    }
    Conduct::Fuel {
        inaccurate,
        guarantee_change: guarantee_change as i32,
        tcc_change: tcc_change as i32,
        hours,
    }
}

/// Bids of a component, their increases added to the sums of the times.
pub fn bids(
    random: &mut Random,
    unit: &Unit,
    component: Component,
    r: i64,
    c: i64,
    time_sums: &mut [i64; 24],
) -> Conduct {
    let density = density(random);
    let limits = bid_limits(component);
    let mut hours = [BidHour::default(); 24];
    for (hour, time_sum) in hours.iter_mut().zip(time_sums) {
        let bid = if random.chance(density, 24) {
            let lines = bid_lines(unit, component, r, c, *time_sum);
            near(random, &lines, limits)
        } else {
            let high = (3 * r + 4_000).min(limits.1);
            match random.below(6) {
                0 => random.pick(&[limits.0, limits.1]),
                1 => random.between(limits.0.max(-3_000), high),
                _ => random.between(0, (r + 100).min(limits.1)),
            }
        };
        if component.is_time() {
            *time_sum += (bid - r).max(0);
        }
        let price = match random.below(6) {
            0 => price(random).into(),
            1 => c,
            2 => bid,
            _ => bid.min(c) - random.between(-3, 2_000),
        };
        *hour = BidHour {
            bid: bid as i32,
            price: price.clamp(-1_000_000, 1_000_000) as i32,
            quantity: match random.below(6) {
                0 => random.pick(&[0, 1, 50_000]),
                _ => random.between(0, 3_000) as u32,
            },
        };
    }
    let impact = match random.below(3) {
        0 => 1 << random.below(24) | 1 << random.below(24),
        _ => random.hours(),
    };
    let minimum_run_hours = match random.below(4) {
        0 => random.pick(&[0, 1, 24]),
        1 => 0,
        _ => random.between(0, 24) as u32,
    };
    Conduct::Bids {
        component,
        shadow_price: random.hours(),
        impact,
        minimum_run_hours,
        hours,
    }
}

/// The largest bids that pass each test of a component, with r and with c.
fn bid_lines(unit: &Unit, component: Component, r: i64, c: i64, time_sum: i64) -> Vec<i64> {
    match component.0 {
        0 | 1 => {
            let mut lines = vec![
                2_499,
                r + (3 * r).min(10_000),
                c + (3 * c).min(10_000),
                r,
                c,
            ];
            if unit.constrained_hours > 0 {
                let increase = 1_752 * i64::from(unit.average_price)
                    / (10 * i64::from(unit.constrained_hours));
                lines.extend([r + increase, c + increase]);
            }
            lines
        }
        2 => vec![499, r + (3 * r).min(5_000), r],
        3 => vec![3 * r, 3 * c, r, c],
        4..=6 => vec![r, r + 120, r + 180, r + 360 - time_sum, r + 360 - time_sum],
        7 => vec![2 * r, r],
        _ => vec![(r + 1) / 2, r / 2, r],
    }
}

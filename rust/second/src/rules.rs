//! The rules on numbers already known to lie in their ranges.
//!
//! The settlement uses these; [`crate::calls`] puts the range checks in front of them.

use crate::terms::{Component, HOURS, HourMask, Market, round_to_cents};

/// What a conduct test of bids needs to know beside the bid and the reference.
#[derive(Clone, Copy, Debug)]
pub struct BidConditions {
    pub market: Market,
    /// The unit's area is 1 and the hour has a Shadow Price.
    pub tight: bool,
    pub constrained_hours: i64,
    pub average_price: i64,
}

/// The conduct test of one bid; of the time components only the single test.
pub fn bid_fails(component: Component, conditions: &BidConditions, r: i64, a: i64) -> bool {
    let d = a - r;
    match component {
        Component::Energy | Component::MinimumGeneration => {
            let general = a >= 2_500 && d > (3 * r).min(10_000);
            // "or, Real-Time, tight, Constrained Hours H ≥ 1: 10 × d × H > 1,752 × Average Price".
            let constrained = conditions.market == Market::RealTime
                && conditions.tight
                && conditions.constrained_hours >= 1
                && 10 * d * conditions.constrained_hours > 1_752 * conditions.average_price;
            general || constrained
        }
        Component::Reserve => a >= 500 && d > (3 * r).min(5_000),
        Component::StartUpCost => d > 2 * r,
        Component::StartUpTime | Component::MinimumRunTime | Component::MinimumDownTime => d > 180,
        Component::MinimumParameter => a > 2 * r,
        Component::MaximumParameter => 2 * a < r,
    }
}

/// "d > 180; or d > 0 and the positive d of that unit, day, market and hour add to over 360".
pub fn time_increase_fails(d: i64, sum_of_positive: i64) -> bool {
    d > 180 || (d > 0 && sum_of_positive > 360)
}

/// The withheld test of one hour.
pub fn withheld_fails(a: i64, capability: i64, s: i64, g: i64, tight: bool) -> bool {
    let (single, together) = if tight { (500, 1_000) } else { (1_000, 2_000) };
    10 * a > capability || a > single || 20 * s > g || s > together
}

/// The dispatch test of one hour.
pub fn dispatch_fails(a: i64, rate: i64, s: i64, tight: bool) -> bool {
    let (single, together) = if tight { (500, 1_000) } else { (1_000, 2_000) };
    a > 15 * rate || a > single || s > together
}

/// "6 if N2 ≥ 4, else 4 if N3 ≥ 3, else 2", in halves.
pub fn multiplier(n3: u16, n2: u16) -> u8 {
    if n2 >= 4 {
        6
    } else if n3 >= 3 {
        4
    } else {
        2
    }
}

/// What one flagged hour adds to a withheld penalty before the multiplier, in tenths of a cent.
pub fn withheld_value(a: i64, b: i64) -> i128 {
    i128::from(a) * i128::from(b.max(0))
}

/// The withheld penalty in cents, from the multiplier and the sum of the hours' values.
pub fn withheld_penalty(multiplier: u8, value: i128) -> i128 {
    round_to_cents(i128::from(multiplier) * value, 20)
}

/// "penalty 3 halves of the flagged hours' b", in cents.
pub fn dispatch_penalty(revenue: i64) -> i128 {
    round_to_cents(3 * i128::from(revenue), 2)
}

/// "X = M × E + 20 × T in twentieths of a cent. Below 10,000,000 ($5,000) the penalty is 0."
pub fn fuel_penalty(e: i64, t: i64, m: u8) -> i128 {
    let x = i128::from(m) * i128::from(e) + 20 * i128::from(t);
    if x < 10_000_000 {
        0
    } else {
        round_to_cents(x, 20)
    }
}

/// "Component 1 Day-Ahead: first such hour to the later of the last and first + R − 1, at most 23."
pub fn mitigated_hours(
    component: Component,
    market: Market,
    hits: HourMask,
    minimum_run_hours: i64,
) -> HourMask {
    if component != Component::MinimumGeneration || market != Market::DayAhead {
        return hits;
    }
    let (Some(first), Some(last)) = (hits.hours().next(), hits.hours().next_back()) else {
        return hits;
    };
    let end = (first as i64 + minimum_run_hours - 1)
        .max(last as i64)
        .min(HOURS as i64 - 1);
    (first..=end as usize).collect()
}

/// "In force there: the lesser of a and r (8: the greater); elsewhere a."
pub fn bid_in_force(component: Component, r: i64, a: i64, mitigated: bool) -> i64 {
    match (mitigated, component) {
        (false, _) => a,
        (true, Component::MaximumParameter) => a.max(r),
        (true, _) => a.min(r),
    }
}

/// "Components 1 and 3 with c ≠ r, in each mitigated hour: in force is a if it passes the conduct
/// test with c, else the lesser of a and c."
pub fn bid_in_force_with_correct_reference(
    component: Component,
    conditions: &BidConditions,
    r: i64,
    c: i64,
    a: i64,
    mitigated: bool,
) -> i64 {
    let tested_again = matches!(
        component,
        Component::MinimumGeneration | Component::StartUpCost
    ) && c != r;
    if !mitigated || !tested_again {
        bid_in_force(component, r, a, mitigated)
    } else if bid_fails(component, conditions, c, a) {
        a.min(c)
    } else {
        a
    }
}

/// What one mitigated hour of component 0 adds to the make-up payment, in tenths of a cent.
pub fn make_up_value(r: i64, c: i64, a: i64, b: i64, m: i64) -> i128 {
    if c == r {
        0
    } else {
        i128::from(m) * i128::from((a.min(c) - b).max(0))
    }
}

/// The make-up payment in cents, from the sum of the hours' values.
pub fn make_up_payment(value: i128) -> i128 {
    round_to_cents(value, 10)
}

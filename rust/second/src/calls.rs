//! The smaller public calls: one rule each, on plain numbers, with the refusals of the last
//! paragraph of "What a case can break".
//!
//! Every call but [`line()`] first returns 7 for a reference out of its component's range (skipped
//! where no such component exists) and then 10 for any other argument out of its range.

use crate::calendar::{self, CALENDAR_DAYS};
use crate::rules::{self, BidConditions};
use crate::terms::{
    Component, HourMask, LARGEST_CAPABILITY, LARGEST_PRICE, LARGEST_QUANTITY, LARGEST_RATE,
    LARGEST_REVENUE, MOST_CONSTRAINED_HOURS, Market,
};

/// "S and G to 3,200,000": 64 units of the largest capability.
const LARGEST_SUM: u32 = 3_200_000;
/// "E ±100,000,000,000,000".
const LARGEST_E: i64 = 100_000_000_000_000;
/// "T to 64,000,000,000".
const LARGEST_T: u64 = 64_000_000_000;
/// "N3 1 to 456": the event itself, 199 others and 256 past entries.
const LARGEST_N3: u16 = 456;

const REFERENCE: u8 = 7;
const ARGUMENT: u8 = 10;
const LINE_ARGUMENT: u8 = 16;

/// Refuses with 10 unless the argument is in its range.
fn within(in_range: bool) -> Result<(), u8> {
    if in_range { Ok(()) } else { Err(ARGUMENT) }
}

/// The component of a call about bids, after the checks of its references and its bid.
fn component_of(number: u8, references: &[u32], bid: i32) -> Result<Component, u8> {
    let Some(component) = Component::from_number(number) else {
        return Err(ARGUMENT);
    };
    if !references
        .iter()
        .all(|&reference| component.allows_reference(i64::from(reference)))
    {
        return Err(REFERENCE);
    }
    within(component.allows_bid(i64::from(bid)))?;
    Ok(component)
}

/// The circumstances of the hour in which a bid is tested.
#[derive(Clone, Copy, Debug, PartialEq, Eq)]
pub struct BidHour {
    /// 0 Day-Ahead, 1 Real-Time.
    pub market: u8,
    /// The unit's area is 1 and the hour's Shadow Price bit is set.
    pub tight: bool,
    /// Constrained Hours of the unit, 0 to 8,784.
    pub constrained_hours: u16,
    /// Average Price of the unit in cents, 0 to 1,000,000.
    pub average_price: u32,
}

impl BidHour {
    fn conditions(&self) -> Result<BidConditions, u8> {
        let market = Market::from_number(self.market).ok_or(ARGUMENT)?;
        within(self.constrained_hours <= MOST_CONSTRAINED_HOURS)?;
        within(i64::from(self.average_price) <= i64::from(LARGEST_PRICE))?;
        Ok(BidConditions {
            market,
            tight: self.tight,
            constrained_hours: i64::from(self.constrained_hours),
            average_price: i64::from(self.average_price),
        })
    }
}

/// The conduct test of one bid: true if it fails. Components 4 to 6 get their single test only,
/// "d > 180".
pub fn bid_test(component: u8, hour: BidHour, reference: u32, bid: i32) -> Result<bool, u8> {
    let component = component_of(component, &[reference], bid)?;
    let conditions = hour.conditions()?;
    Ok(rules::bid_fails(
        component,
        &conditions,
        i64::from(reference),
        i64::from(bid),
    ))
}

/// Where the line of a component runs: the highest bid in range that passes [`bid_test`], for
/// component 8 the lowest. Any argument out of its range is refused with 16.
pub fn line(component: u8, hour: BidHour, reference: u32) -> Result<i32, u8> {
    let component = Component::from_number(component).ok_or(LINE_ARGUMENT)?;
    let conditions = hour.conditions().map_err(|_| LINE_ARGUMENT)?;
    let reference = i64::from(reference);
    if !component.allows_reference(reference) {
        return Err(LINE_ARGUMENT);
    }
    // The good end of the range passes every test, and just beyond the other end counts as failing.
    let (lowest, highest) = component.bids().into_inner();
    let (mut passing, mut failing) = match component {
        Component::MaximumParameter => (highest, lowest - 1),
        _ => (lowest, highest + 1),
    };
    while passing.abs_diff(failing) > 1 {
        let bid = passing.midpoint(failing);
        if rules::bid_fails(component, &conditions, reference, bid) {
            failing = bid;
        } else {
            passing = bid;
        }
    }
    Ok(passing as i32)
}

/// The conduct tests of components 4, 5 and 6 of one unit, day, market and hour together, from
/// their increases d = a − r, each within ±1,000,000,000: true where one fails.
pub fn time_increases_test(increases: [i32; 3]) -> Result<[bool; 3], u8> {
    for increase in increases {
        // The bid and the reference of a time component are both 0 to 1,000,000,000.
        within((-1_000_000_000..=1_000_000_000).contains(&increase))?;
    }
    let sum: i64 = increases
        .iter()
        .filter(|&&increase| increase > 0)
        .map(|&increase| i64::from(increase))
        .sum();
    Ok(increases.map(|increase| rules::time_increase_fails(i64::from(increase), sum)))
}

/// The withheld test of one hour: `withheld` of `capability`, the group's sum S and its listed
/// capability G, all in tenths of MW. True if it fails.
pub fn withheld_test(
    withheld: u32,
    capability: u32,
    group_withheld: u32,
    group_capability: u32,
    tight: bool,
) -> Result<bool, u8> {
    within((1..=LARGEST_CAPABILITY).contains(&capability))?;
    within(withheld <= capability)?;
    within(group_withheld <= LARGEST_SUM)?;
    within(group_capability <= LARGEST_SUM)?;
    Ok(rules::withheld_fails(
        i64::from(withheld),
        i64::from(capability),
        i64::from(group_withheld),
        i64::from(group_capability),
        tight,
    ))
}

/// The dispatch test of one hour: `undelivered` in tenths of MW (at most the largest capability),
/// the unit's response rate and the group's sum S over kind 2. True if it fails.
pub fn dispatch_test(
    undelivered: u32,
    response_rate: u32,
    group_undelivered: u32,
    tight: bool,
) -> Result<bool, u8> {
    within(undelivered <= LARGEST_CAPABILITY)?;
    within(response_rate <= LARGEST_RATE)?;
    within(group_undelivered <= LARGEST_SUM)?;
    Ok(rules::dispatch_fails(
        i64::from(undelivered),
        i64::from(response_rate),
        i64::from(group_undelivered),
        tight,
    ))
}

/// The multiplier of an instance in halves: 2, 4 or 6. N3 is 1 to 456, N2 is 1 to N3.
pub fn multiplier(n3: u16, n2: u16) -> Result<u8, u8> {
    within((1..=LARGEST_N3).contains(&n3))?;
    within((1..=n3).contains(&n2))?;
    Ok(rules::multiplier(n3, n2))
}

/// The withheld penalty in cents of an event with one flagged hour. The multiplier is 2, 4 or 6
/// halves, `withheld` at most the largest capability, the price within ±1,000,000 cents.
pub fn withheld_penalty_of_one_hour(multiplier: u8, withheld: u32, price: i32) -> Result<u64, u8> {
    within(matches!(multiplier, 2 | 4 | 6))?;
    within(withheld <= LARGEST_CAPABILITY)?;
    within((-LARGEST_PRICE..=LARGEST_PRICE).contains(&price))?;
    let value = rules::withheld_value(i64::from(withheld), i64::from(price));
    Ok(rules::withheld_penalty(multiplier, value) as u64)
}

/// The dispatch penalty in cents of an event with one flagged hour and impact 1, from the added
/// revenue of at most 100,000,000 cents.
pub fn dispatch_penalty_of_one_hour(added_revenue: u32) -> Result<u64, u8> {
    within(added_revenue <= LARGEST_REVENUE)?;
    Ok(rules::dispatch_penalty(i64::from(added_revenue)) as u64)
}

/// The fuel penalty in cents from E in tenths of a cent, T in cents and M in halves (2 or 3).
pub fn fuel_penalty(e: i64, t: u64, m: u8) -> Result<u64, u8> {
    within((-LARGEST_E..=LARGEST_E).contains(&e))?;
    within(t <= LARGEST_T)?;
    within(matches!(m, 2 | 3))?;
    Ok(rules::fuel_penalty(e, t as i64, m) as u64)
}

/// Whether a fuel penalty or kind 3 past entry on `earlier` raises M on `day`: in the six months
/// before. Both days are below 36,525.
pub fn fuel_day_window(day: u32, earlier: u32) -> Result<bool, u8> {
    within(day < CALENDAR_DAYS)?;
    within(earlier < CALENDAR_DAYS)?;
    Ok(calendar::fuel_window(day).contains(&earlier))
}

/// The capability period of a day below 36,525: 0 is the Winter that ends on 30 April 2000.
pub fn period_of(day: u32) -> Result<u16, u8> {
    within(day < CALENDAR_DAYS)?;
    Ok(calendar::period_of(day))
}

/// Which of the counts an instance or past entry of capability period `other` enters.
#[derive(Clone, Copy, Debug, PartialEq, Eq)]
pub struct PeriodWindow {
    /// The period is the event's own or one or two before.
    pub n3: bool,
    /// The period is the event's own or one before.
    pub n2: bool,
}

/// Whether capability period `other` counts for an event of period `own`. Every u16 is a period,
/// so this never refuses.
pub fn capability_period_window(own: u16, other: u16) -> Result<PeriodWindow, u8> {
    let periods_before = i32::from(own) - i32::from(other);
    Ok(PeriodWindow {
        n3: (0..=2).contains(&periods_before),
        n2: (0..=1).contains(&periods_before),
    })
}

/// The mitigated mask from the hours that are flagged with their Q bit: a span for component 1
/// Day-Ahead, those hours otherwise. Minimum run hours R are 0 to 24.
pub fn mitigated_span(
    component: u8,
    market: u8,
    flagged_with_impact: u32,
    minimum_run_hours: u32,
) -> Result<u32, u8> {
    let component = Component::from_number(component).ok_or(ARGUMENT)?;
    let market = Market::from_number(market).ok_or(ARGUMENT)?;
    let hits = HourMask::from_bits(flagged_with_impact).ok_or(ARGUMENT)?;
    within(minimum_run_hours <= 24)?;
    Ok(rules::mitigated_hours(component, market, hits, i64::from(minimum_run_hours)).bits())
}

/// The bid in force in one hour, with the case's own reference.
pub fn bid_in_force(component: u8, reference: u32, bid: i32, mitigated: bool) -> Result<i32, u8> {
    let component = component_of(component, &[reference], bid)?;
    let in_force = rules::bid_in_force(component, i64::from(reference), i64::from(bid), mitigated);
    Ok(in_force as i32)
}

/// The bid in force in one hour when the correct reference is known. Components 1 and 3 with
/// c ≠ r are tested again; every other component keeps what [`bid_in_force`] says.
pub fn bid_in_force_with_correct_reference(
    component: u8,
    hour: BidHour,
    reference: u32,
    correct_reference: u32,
    bid: i32,
    mitigated: bool,
) -> Result<i32, u8> {
    let component = component_of(component, &[reference, correct_reference], bid)?;
    let conditions = hour.conditions()?;
    let in_force = rules::bid_in_force_with_correct_reference(
        component,
        &conditions,
        i64::from(reference),
        i64::from(correct_reference),
        i64::from(bid),
        mitigated,
    );
    Ok(in_force as i32)
}

/// The make-up payment in cents of a component 0 event with one mitigated hour: reference r,
/// correct reference c, bid a, price b, quantity m in tenths of MW. It is 0 where c = r.
pub fn make_up_of_one_hour(
    reference: u32,
    correct_reference: u32,
    bid: i32,
    price: i32,
    quantity: u32,
) -> Result<u64, u8> {
    component_of(
        Component::Energy.number(),
        &[reference, correct_reference],
        bid,
    )?;
    within((-LARGEST_PRICE..=LARGEST_PRICE).contains(&price))?;
    within(quantity <= LARGEST_QUANTITY)?;
    let value = rules::make_up_value(
        i64::from(reference),
        i64::from(correct_reference),
        i64::from(bid),
        i64::from(price),
        i64::from(quantity),
    );
    Ok(rules::make_up_payment(value) as u64)
}

//! The smaller calls, each one figure of the rules from plain numbers: docs/RULES.md, C.

use crate::numbers::{Cents, Component, Market, Mask, Multiplier};
use crate::{Refused, ffi};

/// The circumstances of the hour in which a bid is tested.
#[derive(Clone, Copy, Debug, Default, PartialEq, Eq)]
pub struct BidHour {
    /// Day-Ahead or Real-Time.
    pub market: Market,
    /// The unit's area is 1 and the hour has a Shadow Price.
    pub tight: bool,
    /// Average Price of the unit in cents, 0 to 1,000,000.
    pub average_price: u32,
    /// Constrained Hours of the unit, 0 to 8,784.
    pub constrained_hours: u16,
}

/// Which of the three times of a bid fail.
#[derive(Clone, Copy, Debug, Default, PartialEq, Eq)]
pub struct Times {
    /// The start-up time.
    pub start_up: bool,
    /// The minimum run time.
    pub minimum_run: bool,
    /// The minimum down time.
    pub minimum_down: bool,
}

/// Whether a bid fails the conduct test of its component, 0 to 8; components 4 to 6 get their single
/// test, "d > 180".
///
/// The reference is at most 1,000,000 for components 0 to 2, else 1,000,000,000. The bid is within
/// ±1,000,000 for components 0 and 1, 0 to 1,000,000 for 2, else 0 to 1,000,000,000.
pub fn bid_fails(
    component: Component,
    reference: u32,
    bid: i32,
    hour: BidHour,
) -> Result<bool, Refused> {
    ffi::attachment_h_bid_fails(
        component.0,
        reference,
        bid,
        hour.market.0,
        hour.tight,
        hour.average_price,
        hour.constrained_hours,
    )
    .verdict()
}

/// Where the line of a component runs: the highest bid in range that passes the conduct test, for
/// component 8 the lowest; components 4 to 6 get their single test, "d > 180".
///
/// A bid in range passes exactly where it is not above the line, for component 8 not below it. Ranges are
/// those of [`bid_fails`]; 16 is the only refusal, for any argument out of its range.
pub fn line(component: Component, reference: u32, hour: BidHour) -> Result<i32, Refused> {
    ffi::attachment_h_line(
        component.0,
        reference,
        hour.market.0,
        hour.tight,
        hour.average_price,
        hour.constrained_hours,
    )
    .bid()
}

/// Which of start-up, minimum run and minimum down time fail, in one unit, day, market and hour,
/// from their increases over the reference in minutes, each within ±1,000,000,000.
pub fn times_fail(start_up: i32, minimum_run: i32, minimum_down: i32) -> Result<Times, Refused> {
    ffi::attachment_h_times_fail(start_up, minimum_run, minimum_down).times()
}

/// Whether an hour's withheld power fails the conduct test, all in tenths of MW.
///
/// `withheld` is at most the capability, which is 1 to 50,000; `s` is the group's sum and `g` its listed
/// capability, each at most 3,200,000.
pub fn withheld_fails(
    withheld: u32,
    capability: u32,
    s: u32,
    g: u32,
    tight: bool,
) -> Result<bool, Refused> {
    ffi::attachment_h_withheld_fails(withheld, capability, s, g, tight).verdict()
}

/// Whether an hour's undelivered power fails the conduct test.
///
/// `undelivered` in tenths of MW and the unit's response rate in tenths of MW per minute are at most
/// 50,000, the group's sum `s` at most 3,200,000.
pub fn dispatch_fails(
    undelivered: u32,
    response_rate: u32,
    s: u32,
    tight: bool,
) -> Result<bool, Refused> {
    ffi::attachment_h_dispatch_fails(undelivered, response_rate, s, tight).verdict()
}

/// The multiplier of an instance: 2, 4 or 6 halves. N3 is 1 to 456, N2 is 1 to N3.
pub fn multiplier(n3: u32, n2: u32) -> Result<Multiplier, Refused> {
    ffi::attachment_h_multiplier(n3, n2).multiplier()
}

/// The penalty of a withheld event, from the power and the price of its flagged hours.
///
/// Both have as many hours, at most 24; a power is at most 50,000 tenths of MW, a price within
/// ±1,000,000 cents. The multiplier is 0, 2, 4 or 6 halves.
pub fn withheld_penalty(
    multiplier: Multiplier,
    withheld: &[u32],
    prices: &[i32],
) -> Result<Cents, Refused> {
    ffi::withheld_penalty(multiplier.0, withheld, prices).cents()
}

/// The penalty of a dispatch event with impact 1, from the added revenue of its flagged
/// hours: at most 24, each at most 100,000,000 cents.
pub fn dispatch_penalty(added_revenues: &[u32]) -> Result<Cents, Refused> {
    ffi::dispatch_penalty(added_revenues).cents()
}

/// The penalty for inaccurate fuel data: E in tenths of a cent within
/// ±100,000,000,000,000, T in cents at most 64,000,000,000, M 2 or 3 halves.
pub fn fuel_penalty(e: i64, t: u64, m: Multiplier) -> Result<Cents, Refused> {
    ffi::attachment_h_fuel_penalty(e, t, m.0).cents()
}

/// Whether a fuel penalty of the day `earlier` raises the multiplier of `day`: it is before that day,
/// and not before the same day of the month six months earlier. Days are below 36,525.
pub fn fuel_day_counts(day: u32, earlier: u32) -> Result<bool, Refused> {
    ffi::attachment_h_fuel_day_counts(day, earlier).verdict()
}

/// The capability period that a day is in: 0 is the Winter that ends on 30 April 2000. The day is
/// below 36,525.
pub fn period_of(day: u32) -> Result<u16, Refused> {
    ffi::attachment_h_period_of(day).period()
}

/// Whether a capability period is the own one or one of the `back` before it: 2 for N3, 1 for N2.
pub fn period_counts(back: u8, own: u16, period: u16) -> Result<bool, Refused> {
    ffi::attachment_h_period_counts(back, own, period).verdict()
}

/// The mitigated hours of component 1 Day-Ahead, from the flagged hours with impact
/// (bits 24 to 31 are 0) and the minimum run hours, 0 to 24.
pub fn mitigated_span(hits: Mask, minimum_run_hours: u32) -> Result<Mask, Refused> {
    ffi::attachment_h_mitigated_span(hits.0, minimum_run_hours).mask()
}

/// The bid in force in one hour, with ranges as in [`bid_fails`].
pub fn bid_in_force(
    component: Component,
    bid: i32,
    reference: u32,
    mitigated: bool,
) -> Result<i32, Refused> {
    ffi::attachment_h_bid_in_force(component.0, bid, reference, mitigated).bid()
}

/// The bid in force in one hour beside a correct reference, with ranges as in [`bid_fails`].
pub fn corrected_bid_in_force(
    component: Component,
    bid: i32,
    reference: u32,
    correct: u32,
    hour: BidHour,
    mitigated: bool,
) -> Result<i32, Refused> {
    ffi::attachment_h_corrected_bid_in_force(
        component.0,
        bid,
        reference,
        correct,
        hour.market.0,
        hour.tight,
        hour.average_price,
        hour.constrained_hours,
        mitigated,
    )
    .bid()
}

/// The make-up payment of one mitigated hour of component 0; 0 where the correct reference
/// is the reference.
///
/// Bid and price are within ±1,000,000, the quantity is at most 50,000 tenths of MW, both references
/// are at most 1,000,000.
pub fn make_up(
    bid: i32,
    price: i32,
    quantity: u32,
    reference: u32,
    correct: u32,
) -> Result<Cents, Refused> {
    ffi::attachment_h_make_up(bid, price, quantity, reference, correct).cents()
}

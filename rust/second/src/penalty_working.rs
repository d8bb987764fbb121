//! The working of an event's penalty: the terms of its hours, and what they come to.

use crate::calendar::fuel_window;
use crate::case_file::{Case, Conduct, DispatchHour, FuelHour, Violation, WithheldHour};
use crate::instances::instances;
use crate::rules;
use crate::settlement::{Row, unit_of};
use crate::terms::{HOURS, HourMask, round_to_cents};

/// "10,000,000, which is $5,000", in twentieths of a cent.
const LEAST_X: i128 = 10_000_000;

/// The working of an event's penalty. What its kind lacks is 0.
#[derive(Clone, Copy, Debug, Default, PartialEq, Eq)]
pub struct PenaltyWorking {
    /// Kind of the event.
    pub kind: u8,
    /// In halves; of kind 3 this is M.
    pub multiplier: u8,
    /// Kind 3: X is below $5,000.
    pub below: bool,
    /// N3 of the event.
    pub n3: u16,
    /// N2 of the event.
    pub n2: u16,
    /// The event whose row has the penalty.
    pub row: usize,
    /// Kind 1: the sum of the hours' terms, in tenths of a cent.
    pub amount: u64,
    /// Kind 2: the sum of the hours' terms, in cents.
    pub revenue: u64,
    /// Kind 3: E of the party-day, in tenths of a cent.
    pub e: i64,
    /// Kind 3: T of the party-day, in cents.
    pub t: u64,
    /// Kind 3: X in twentieths of a cent, or 0 if negative.
    pub x: u64,
    /// The penalty in cents.
    pub penalty: u64,
    /// What each flagged hour of the event adds: tenths of a cent, of kind 2 cents.
    pub hours: [u64; HOURS],
    /// Kind 3: what each flagged hour of the event takes away, in tenths of a cent.
    pub losses: [u64; HOURS],
}

/// The working of the penalty of an event of the case, beside its rows.
pub fn penalty_working(case: &Case, rows: &[Row], event: usize) -> PenaltyWorking {
    let nothing = PenaltyWorking {
        kind: case.events[event].conduct.kind(),
        row: event,
        ..PenaltyWorking::default()
    };
    match &case.events[event].conduct {
        Conduct::Withheld { hours, .. } => withheld(case, rows, hours, nothing),
        Conduct::Dispatch { impact, hours, .. } => {
            dispatch(*impact, rows[event].flags, hours, nothing)
        }
        Conduct::Fuel { hours, .. } => fuel(case, rows, hours, nothing),
        Conduct::Bids { .. } => nothing,
    }
}

fn withheld(
    case: &Case,
    rows: &[Row],
    hours: &[WithheldHour; HOURS],
    nothing: PenaltyWorking,
) -> PenaltyWorking {
    let event = nothing.row;
    let terms = rows[event].flags.amounts(|hour| {
        let WithheldHour { withheld, price } = hours[hour];
        withheld * price.max(0)
    });
    let amount: u64 = terms.iter().sum();
    let (multiplier, n3, n2) = match instances(case, rows, event) {
        Some(counted) => {
            let (n3, n2) = (counted.three.count(), counted.two.count());
            (rules::multiplier(n3, n2), n3, n2)
        }
        None => (0, 0, 0),
    };
    PenaltyWorking {
        multiplier,
        n3,
        n2,
        amount,
        penalty: cents(multiplier, amount, 20),
        hours: terms,
        ..nothing
    }
}

fn dispatch(
    impact: bool,
    flags: HourMask,
    hours: &[DispatchHour; HOURS],
    nothing: PenaltyWorking,
) -> PenaltyWorking {
    let terms = flags.amounts(|hour| hours[hour].added_revenue);
    let revenue: u64 = terms.iter().sum();
    let multiplier = if impact && !flags.is_empty() { 3 } else { 0 };
    PenaltyWorking {
        multiplier,
        revenue,
        penalty: cents(multiplier, revenue, 2),
        hours: terms,
        ..nothing
    }
}

/// A multiplier in halves times a sum; with the halves that is in `parts`-ths of a cent.
fn cents(multiplier: u8, sum: u64, parts: i128) -> u64 {
    round_to_cents(i128::from(multiplier) * i128::from(sum), parts) as u64
}

/// What a fuel event brings to its party-day.
struct FuelEvent<'a> {
    inaccurate: HourMask,
    guarantee_change: i64,
    tcc_change: i64,
    hours: &'a [FuelHour; HOURS],
}

impl FuelEvent<'_> {
    fn of(case: &Case, event: usize) -> Option<FuelEvent<'_>> {
        match &case.events[event].conduct {
            Conduct::Fuel {
                inaccurate,
                guarantee_change,
                tcc_change,
                hours,
            } => Some(FuelEvent {
                inaccurate: *inaccurate,
                guarantee_change: *guarantee_change,
                tcc_change: *tcc_change,
                hours,
            }),
            _ => None,
        }
    }

    /// What it adds to E, 10 × Q and the terms of the hours of the union, in tenths of a cent.
    fn e(&self, union: HourMask) -> i64 {
        let gain: u64 = gains(union, self.hours).iter().sum();
        let loss: u64 = losses(union, self.hours).iter().sum();
        10 * self.guarantee_change + gain as i64 - loss as i64
    }
}

fn gains(union: HourMask, hours: &[FuelHour; HOURS]) -> [u64; HOURS] {
    union.amounts(|hour| hours[hour].energy * hours[hour].price_change.max(0))
}

fn losses(union: HourMask, hours: &[FuelHour; HOURS]) -> [u64; HOURS] {
    union.amounts(|hour| hours[hour].energy * (-hours[hour].price_change).max(0))
}

fn fuel(
    case: &Case,
    rows: &[Row],
    hours: &[FuelHour; HOURS],
    nothing: PenaltyWorking,
) -> PenaltyWorking {
    let event = nothing.row;
    let places = party_day(case, event);
    let events: Vec<FuelEvent> = places
        .iter()
        .filter_map(|&place| FuelEvent::of(case, place))
        .collect();
    let union = events.iter().fold(HourMask::default(), |union, other| {
        union.union(other.inaccurate)
    });
    let e: i64 = events.iter().map(|other| other.e(union)).sum();
    let tcc: i64 = events.iter().map(|other| other.tcc_change).sum();
    let t = tcc.max(0);
    let m: u8 = if is_raised(case, rows, event) { 3 } else { 2 };
    let x = i128::from(m) * i128::from(e) + 20 * i128::from(t);
    let below = x < LEAST_X;
    PenaltyWorking {
        multiplier: m,
        below,
        row: lowest_unit(case, &places),
        e,
        t: t as u64,
        x: x.max(0) as u64,
        penalty: if below {
            0
        } else {
            round_to_cents(x, 20) as u64
        },
        hours: gains(union, hours),
        losses: losses(union, hours),
        ..nothing
    }
}

/// The events together with this one: "the same kind, day, market and group".
fn party_day(case: &Case, event: usize) -> Vec<usize> {
    let together = |place: usize| {
        let own = &case.events[place];
        let group = unit_of(case, place).group;
        (own.conduct.kind(), own.day, own.market, group)
    };
    (0..case.events.len())
        .filter(|&other| together(other) == together(event))
        .collect()
}

/// "The row of the lowest unit of the party-day has the penalty and M".
fn lowest_unit(case: &Case, party_day: &[usize]) -> usize {
    *party_day
        .iter()
        .min_by_key(|&&place| case.events[place].unit)
        .expect("an event is on its own party-day")
}

/// Whether the group was penalised for fuel data in the six months before, in either market: by a
/// kind 3 past entry, or by a penalty above 0 of this file.
fn is_raised(case: &Case, rows: &[Row], event: usize) -> bool {
    let own_group = unit_of(case, event).group;
    let window = fuel_window(case.events[event].day);
    let counts = |group: u16, day: u32| group == own_group && window.contains(&day);
    let by_past = case
        .past
        .iter()
        .any(|entry| entry.violation == Violation::Fuel && counts(entry.group, entry.day));
    let by_file = (0..rows.len()).any(|place| {
        let penalised = FuelEvent::of(case, place).is_some() && rows[place].penalty > 0;
        penalised && counts(unit_of(case, place).group, case.events[place].day)
    });
    by_past || by_file
}

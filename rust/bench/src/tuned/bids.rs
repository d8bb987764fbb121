//! Bids but for the three times: the line of each, the mitigated hours, the bids in force and the make-up payments.

use super::columns::{Hours, above, below, make_up_value, put_at_least, put_at_most};
use super::event::{DAY_AHEAD, Event, REAL_TIME};
use super::parties::List;
use super::row::{ROW_BYTES, Row};
use super::units::Unit;
use super::{Case, Scratch};

const ENERGY: u8 = 0;
const MINIMUM_GENERATION: u8 = 1;
const LAST_HOUR: u32 = 23;

/// How far above its reference level a bid of a component may be: so many times the level, or a step where that is
/// lower; and up to a floor it passes in any case.
#[derive(Clone, Copy)]
struct Threshold {
    times: i64,
    step: i64,
    floor: i64,
}

static THRESHOLDS: [Threshold; 8] = {
    const NO_STEP: i64 = i64::MAX;
    const fn threshold(times: i64, step: i64, floor: i64) -> Threshold {
        Threshold { times, step, floor }
    }
    let price = threshold(3, 10_000, 2_499);
    let none = threshold(0, NO_STEP, 0);
    [
        price,
        price,
        threshold(3, 5_000, 499),
        threshold(2, NO_STEP, 0),
        // The times have lines of their own.
        none,
        none,
        none,
        threshold(1, NO_STEP, 0),
    ]
};

/// The highest bid of a component that passes with a reference level; no bid is above i32::MAX.
#[inline(always)]
fn line(component: u8, level: u32) -> i32 {
    let threshold = THRESHOLDS[usize::from(component) % THRESHOLDS.len()];
    let level = i64::from(level);
    let line = level + (threshold.times * level).min(threshold.step);
    line.max(threshold.floor).min(i64::from(i32::MAX)) as i32
}

/// The test of a Constrained Area, beside the line: hours in which a bid may not be further than so much above its
/// reference level.
#[derive(Clone, Copy)]
struct Constrained {
    hours: u32,
    margin: i32,
}

impl Constrained {
    /// Of bids for energy and minimum generation in the tight hours of Real-Time; of others there are no such hours.
    #[inline(always)]
    fn of(event: Event, unit: &Unit) -> Constrained {
        let tight = event.p() & unit.constrained;
        let asked = (event.component() <= MINIMUM_GENERATION) & (event.market() == REAL_TIME);
        if asked & (tight != 0) & (unit.constrained_hours != 0) {
            let margin = 1_752 * unit.average_price / (10 * unit.constrained_hours);
            Constrained {
                hours: tight,
                margin: margin.cast_signed(),
            }
        } else {
            Constrained {
                hours: 0,
                margin: 0,
            }
        }
    }
}

/// The hours in which a bid fails with a reference level.
#[inline(always)]
fn failing(a: &Hours, component: u8, level: u32, constrained: Constrained) -> u32 {
    let mut failing = above(a, line(component, level));
    if constrained.hours != 0 {
        failing |= constrained.hours & above(a, level.cast_signed() + constrained.margin);
    }
    failing
}

/// The mitigated hours: the hits, and of minimum generation Day-Ahead all from the first hit to the last, or through the
/// minimum run hours from the first, whichever ends later.
#[inline(always)]
fn mitigated_hours(event: Event, flags: u32) -> u32 {
    let hits = flags & event.q();
    let spans = (event.component() == MINIMUM_GENERATION) & (event.market() == DAY_AHEAD);
    if !spans | (hits == 0) {
        return hits;
    }
    let first = hits.trailing_zeros();
    let run_end = (first + event.r()).saturating_sub(1);
    let end = hits.ilog2().max(run_end).min(LAST_HOUR);
    (2 << end) - (1 << first)
}

/// Writes the rows of bids that fail above their line; the sum of their make-up payments.
#[inline(never)]
pub fn settle(case: &Case, scratch: &mut Scratch, rows: &mut [[u8; ROW_BYTES]]) -> u64 {
    let list = case.parties.list(List::Bids);
    let bids = case.columns(list, scratch.columns);
    let mut make_ups = 0;
    for (&place, a) in list.iter().zip(bids) {
        let event = case.events.event(place);
        let component = event.component();
        let (r, c) = (case.reference_of(place), case.correct_of(place));
        let constrained = Constrained::of(event, case.unit_of(place));
        let flags = failing(a, component, r, constrained);
        let mitigated = mitigated_hours(event, flags);
        // The hours in which the bid is at most a level.
        let (mut held, mut level) = (mitigated, r);
        let mut make_up = 0;
        if (c != r) & (mitigated != 0) {
            if component == ENERGY {
                let tenths = make_up_value(a, &event.b(), &event.m(), c, mitigated);
                make_up = (tenths + 5) / 10;
                make_ups += make_up;
            } else {
                // What passes with c is in force again, and what fails with it is above it.
                held &= failing(a, component, c, constrained);
                level = c;
            }
        }
        let row = Row {
            flags,
            mitigated,
            make_up,
            ..Row::default()
        };
        let bids = row.put_head(&mut rows[usize::from(place)]);
        put_at_most(bids, a, level, held);
    }
    make_ups
}

/// Writes the rows of bids of maximum parameters, which fail below half of their reference level.
#[inline(never)]
pub fn settle_maximums(case: &Case, scratch: &mut Scratch, rows: &mut [[u8; ROW_BYTES]]) {
    let list = case.parties.list(List::Maximums);
    let bids = case.columns(list, scratch.columns);
    for (&place, a) in list.iter().zip(bids) {
        let event = case.events.event(place);
        let r = case.reference_of(place);
        let flags = below(a, r.div_ceil(2).cast_signed());
        let row = Row {
            flags,
            mitigated: flags & event.q(),
            ..Row::default()
        };
        let bids = row.put_head(&mut rows[usize::from(place)]);
        put_at_least(bids, a, r, row.mitigated);
    }
}

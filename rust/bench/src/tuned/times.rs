//! Bids of start-up time, minimum run time and minimum down time: each alone, and the three together.

use super::columns::{add_increases, put_at_most, time_above};
use super::parties::List;
use super::row::{ROW_BYTES, Row};
use super::{Case, Scratch};

/// Minutes by which one time may be above its reference level, and all three of a unit together.
const TIME_LINE: i32 = 180;
const SUM_LINE: u32 = 360;

/// Writes the rows of time bids.
#[inline(never)]
pub fn settle(case: &Case, scratch: &mut Scratch, rows: &mut [[u8; ROW_BYTES]]) {
    let list = case.parties.list(List::Times);
    let sums = scratch.sums(case.parties.count(List::Times));
    let bids = case.columns(list, scratch.columns);
    for (&place, a) in list.iter().zip(bids) {
        let sums = &mut sums[case.parties.number(place)];
        add_increases(sums, a, case.reference_of(place));
    }
    for (&place, a) in list.iter().zip(bids) {
        let event = case.events.event(place);
        let r = case.reference_of(place);
        let sums = &sums[case.parties.number(place)];
        let (line, line_in_sum) = (r.cast_signed() + TIME_LINE, r.cast_signed());
        let flags = time_above(a, line, sums, line_in_sum, SUM_LINE);
        let row = Row {
            flags,
            mitigated: flags & event.q(),
            ..Row::default()
        };
        let bids = row.put_head(&mut rows[usize::from(place)]);
        put_at_most(bids, a, r, row.mitigated);
    }
}

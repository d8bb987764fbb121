//! The past entries: the number 9, and 18 and 19 of them.

use super::calendar::{CALENDAR_DAYS, is_period_of};
use super::faults::Faults;
use super::sections::PAST_BYTES;
use super::words::{u16_at, u32_at};

const HIGHEST_DAY: u32 = 1_000_000;
/// Kinds of a past entry.
pub const WITHHELD: u8 = 1;
pub const FUEL: u8 = 3;

/// The past entries of a case.
pub struct Past<'a> {
    entries: &'a [[u8; PAST_BYTES]],
}

/// A past violation.
pub struct Entry {
    pub group: u32,
    pub kind: u8,
    pub market: u8,
    pub period: u32,
    pub day: u32,
}

impl<'a> Past<'a> {
    pub fn new(entries: &'a [[u8; PAST_BYTES]]) -> Past<'a> {
        Past { entries }
    }

    pub fn check(&self, faults: &mut Faults) {
        let (mut unreadable, mut late, mut in_other_period) = (false, false, false);
        for bytes in self.entries {
            let [_, _, kind, market, ..] = *bytes;
            let (period, spare, day) = (u16_at(bytes, 4), u16_at(bytes, 6), u32_at(bytes, 8));
            unreadable |= ((kind != WITHHELD) & (kind != FUEL))
                | (market > 1)
                | (spare != 0)
                | (day > HIGHEST_DAY);
            late |= day >= CALENDAR_DAYS;
            in_other_period |= !is_period_of(period, day);
        }
        faults.note(9, unreadable);
        faults.note(18, late);
        faults.note(19, in_other_period);
    }

    pub fn entries(&self) -> impl ExactSizeIterator<Item = Entry> {
        self.entries.iter().map(|bytes| Entry {
            group: u16_at(bytes, 0),
            kind: bytes[2],
            market: bytes[3],
            period: u16_at(bytes, 4),
            day: u32_at(bytes, 8),
        })
    }
}

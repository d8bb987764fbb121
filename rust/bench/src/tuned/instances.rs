//! N3 and N2: the instances of a party in a market, period by period.

use super::Case;
use super::past::WITHHELD;
use super::sections::MOST_UNITS;

/// A key that is no instance's, nor that of one or two periods before one.
const NEVER: u16 = 0xFF00;

/// The instances so far.
pub struct Instances {
    /// Party, market and period of each, those of the past too.
    keys: Vec<u16>,
    counts: [Counts; 2 * MOST_UNITS],
}

/// Instances of a party and a market as they are counted in a period.
#[derive(Clone, Copy)]
struct Counts {
    /// One more than the period; 0 where none was counted yet.
    counted: u16,
    in_period: u16,
    one_back: u16,
    two_back: u16,
}

impl Counts {
    const NONE: Counts = Counts {
        counted: 0,
        in_period: 0,
        one_back: 0,
        two_back: 0,
    };
}

/// A period of a party in a market, which is next to the periods before and after it. Before the first period of one
/// are numbers that no calendar has as periods, so that what is one or two back is never another's.
#[inline(always)]
fn key(party: u32, market: u8, period: u32) -> u16 {
    (party as u16) << 9 | u16::from(market) << 8 | period as u16
}

impl Instances {
    /// Those of the past, with room for so many more.
    pub fn new(case: &Case, more: usize) -> Instances {
        let entries = case.past.entries();
        let mut keys = Vec::with_capacity(entries.len() + more);
        keys.extend(
            entries.map(|entry| match case.tables.units.party(entry.group) {
                Some(party) if entry.kind == WITHHELD => key(party, entry.market, entry.period),
                _ => NEVER,
            }),
        );
        Instances {
            keys,
            counts: [Counts::NONE; 2 * MOST_UNITS],
        }
    }

    /// Counts one more instance: its N3 and N2, with itself.
    pub fn count(&mut self, party: u32, market: u8, period: u32) -> (u64, u64) {
        let key = key(party, market, period);
        let counts = &mut self.counts[usize::from(key >> 8) % (2 * MOST_UNITS)];
        let counted = period as u16 + 1;
        if counts.counted != counted {
            // Periods rise with the events, so that this comes once for each.
            *counts = Counts {
                counted,
                in_period: count_of(&self.keys, key),
                one_back: count_of(&self.keys, key.wrapping_sub(1)),
                two_back: count_of(&self.keys, key.wrapping_sub(2)),
            };
        }
        counts.in_period += 1;
        self.keys.push(key);
        let n2 = counts.in_period + counts.one_back;
        (u64::from(n2 + counts.two_back), u64::from(n2))
    }
}

fn count_of(keys: &[u16], wanted: u16) -> u16 {
    let mut count = 0;
    for &key in keys {
        count += u16::from(key == wanted);
    }
    count
}

/// The multiplier of an instance, in halves.
#[inline(always)]
pub fn multiplier(n3: u64, n2: u64) -> u64 {
    if n2 >= 4 {
        6
    } else if n3 >= 3 {
        4
    } else {
        2
    }
}

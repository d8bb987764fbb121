//! The events of each kind, and which of them are added together.

use std::hint::select_unpredictable;

use super::Tables;
use super::event::{BIDS, Events};
use super::sections::{MOST_EVENTS, MOST_UNITS};

/// A list of events that are settled in one loop.
#[derive(Clone, Copy)]
pub enum List {
    Withheld,
    Dispatch,
    Fuel,
    /// Bids that fail above their line, but for the times.
    Bids,
    /// Bids of the three time components.
    Times,
    /// Bids of a parameter that is a maximum, which fail below their line.
    Maximums,
}

const LISTS: usize = 6;

/// The lists of the kinds from 1 on; of bids it goes by the component.
static LIST_OF: [[List; 9]; 4] = {
    use List::{Bids, Dispatch, Fuel, Maximums, Times, Withheld};
    [
        [Withheld; 9],
        [Dispatch; 9],
        [Fuel; 9],
        [Bids, Bids, Bids, Bids, Times, Times, Times, Bids, Maximums],
    ]
};

/// The places of the events, list by list, and a number for those of a list that are added together: a party's events of
/// one day, kind and market, or a unit's bids of one day and market. The numbers of a list count up as the first event of
/// each comes.
pub struct Parties {
    lists: [[u8; MOST_EVENTS]; LISTS],
    /// How many events a list has, and how many numbers; two bytes stay 0.
    lengths: [u8; 8],
    counts: [u8; 8],
    numbers: [u8; MOST_EVENTS],
}

/// Where a party, or a unit, was met last in a list.
#[derive(Clone, Copy)]
struct Met {
    /// One more than the first event of that run, a run being the events of one day, kind and market, which stand
    /// together; 0 where there was none.
    run: u8,
    number: u8,
}

impl Parties {
    #[inline(never)]
    pub fn of(events: &Events, tables: &Tables) -> Parties {
        let mut parties = Parties {
            lists: [[0; MOST_EVENTS]; LISTS],
            lengths: [0; 8],
            counts: [0; 8],
            numbers: [0; MOST_EVENTS],
        };
        let mut met = [[Met { run: 0, number: 0 }; MOST_UNITS]; LISTS];
        let (mut run, mut of_run) = (0, u64::MAX);
        // A byte for each list: counters in memory would have each event wait for the one before it.
        let (mut lengths, mut counts) = (0_u64, 0_u64);
        let noted = tables.places.iter().zip(&mut parties.numbers);
        for (event, (place, (&unit, number))) in events.iter().zip(noted.enumerate()) {
            let place = place as u8;
            let list = LIST_OF[usize::from(event.kind() - 1)][usize::from(event.component())];
            let byte = 8 * list as u32;
            parties.lists[list as usize][usize::from((lengths >> byte) as u8)] = place;
            lengths += 1 << byte;

            run = if event.run() == of_run {
                run
            } else {
                place + 1
            };
            of_run = event.run();
            let who = if event.kind() == BIDS {
                usize::from(unit)
            } else {
                tables.units.unit(unit).party as usize
            };
            let met = &mut met[list as usize][who % MOST_UNITS];
            let is_first = met.run != run;
            met.number = select_unpredictable(is_first, (counts >> byte) as u8, met.number);
            met.run = run;
            counts += u64::from(is_first) << byte;
            *number = met.number;
        }
        parties.lengths = lengths.to_le_bytes();
        parties.counts = counts.to_le_bytes();
        parties
    }

    /// The events of a list, in the order of the file.
    pub fn list(&self, list: List) -> &[u8] {
        let length = self.lengths[list as usize];
        &self.lists[list as usize][..usize::from(length)]
    }

    /// How many numbers a list has.
    pub fn count(&self, list: List) -> usize {
        usize::from(self.counts[list as usize])
    }

    /// How many columns a list has at most: one for each event, of fuel two.
    pub fn most_columns(&self) -> usize {
        let longest = self.lengths.into_iter().max().map_or(0, usize::from);
        longest.max(2 * self.list(List::Fuel).len())
    }

    /// The number that an event has in common with those that it is added to.
    #[inline(always)]
    pub fn number(&self, event: u8) -> usize {
        usize::from(self.numbers[usize::from(event)])
    }
}

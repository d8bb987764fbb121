//! The settlement as a specialist writes it for speed: plain loops over fixed arrays, safe Rust, no dependency.
//!
//! The check goes once over every record. It adds up what it finds and branches on none of it, since an accepted case
//! has no fault that a branch could be taken for; only at the end it says which number comes first. It leaves tables
//! behind: the units, the reference levels by unit and component, and the unit of each event.
//!
//! The settlement then takes the events kind by kind, so that no loop asks again what kind an event is. Events that are
//! added together (a party's of one day, kind and market, or a unit's bids of one day and market) have a number in
//! common, under which their sums stand. The hours of an event are a column of 24 words, and a conduct test compares
//! that column with a line that is worked out once an event. Each row is written once.
//!
//! Only the type of the answer is the second implementation's, so that the two can be compared.

mod bids;
mod calendar;
mod columns;
mod event;
mod faults;
mod fuel;
mod index;
mod instances;
mod levels;
mod limits;
mod parties;
mod past;
mod power;
mod row;
mod sections;
mod times;
mod units;
mod words;

use second::Outcome;

use columns::Hours;
use event::Events;
use faults::Faults;
use levels::{Levels, reads_correct};
use parties::{List, Parties};
use past::Past;
use row::ROW_BYTES;
use sections::{ADDED_IN_1, ADDED_IN_2, MOST_EVENTS, Sections};
use units::{Unit, Units};

/// What the check finds out and the settlement reads.
struct Tables {
    units: Units,
    /// r of a unit and a component.
    references: Levels,
    /// c of them, where there is a correction.
    correction: Levels,
    is_corrected: bool,
    /// The place of each event's unit.
    places: [u8; MOST_EVENTS],
}

/// An accepted case.
struct Case<'a> {
    tables: &'a Tables,
    past: Past<'a>,
    events: Events<'a>,
    parties: &'a Parties,
}

/// Room for the hours of events.
struct Scratch<'a> {
    /// Sums of events that are added together, each 0 until it is taken.
    sums: &'a mut [Hours],
    /// A column for each event of a list, of fuel two.
    columns: &'a mut [Hours],
}

impl<'a> Scratch<'a> {
    /// Takes so many sums.
    fn sums(&mut self, count: usize) -> &'a mut [Hours] {
        let sums = self.sums.split_off_mut(..count);
        sums.expect("room for the sums of every list")
    }
}

impl Tables {
    /// All of its bytes are 0, so that it is made in one stroke.
    const EMPTY: Tables = Tables {
        units: Units::EMPTY,
        references: Levels::EMPTY,
        correction: Levels::EMPTY,
        is_corrected: false,
        places: [0; MOST_EVENTS],
    };

    /// Where c is looked for: in the correction, or where there is none in the case's own references.
    fn correct(&self) -> &Levels {
        if self.is_corrected {
            &self.correction
        } else {
            &self.references
        }
    }

    /// The sections of the case, with the tables filled, or the first number that it breaks.
    fn check<'a>(
        &mut self,
        file: &'a [u8],
        correction: &[u8],
        rows_len: usize,
    ) -> Result<Sections<'a>, u8> {
        let sections = Sections::of(file)?;
        let mut faults = Faults::default();
        if sections.added == ADDED_IN_1 {
            self.read::<ADDED_IN_1>(&sections, correction, &mut faults);
        } else {
            self.read::<ADDED_IN_2>(&sections, correction, &mut faults);
        }
        faults.note(15, rows_len < ROW_BYTES * Events::new(&sections).len());
        faults.first().map_or(Ok(sections), Err)
    }

    /// Reads every record of a version.
    fn read<const ADDED: usize>(
        &mut self,
        sections: &Sections,
        correction: &[u8],
        faults: &mut Faults,
    ) {
        let Tables {
            units, references, ..
        } = self;
        units.read::<ADDED>(sections.units, faults);
        references.read_references::<ADDED>(sections.references, units, faults);
        self.is_corrected = !correction.is_empty();
        if self.is_corrected {
            let levels = &mut self.correction;
            levels.read_correction::<ADDED>(correction, units, faults);
        }
        Past::new(sections.past).check(faults);
        self.check_events::<ADDED>(sections.events, faults);
    }
}

impl Case<'_> {
    /// The unit of an event.
    #[inline(always)]
    fn unit_of(&self, event: u8) -> &Unit {
        self.tables
            .units
            .unit(self.tables.places[usize::from(event)])
    }

    /// r of a bid.
    #[inline(always)]
    fn reference_of(&self, bid: u8) -> u32 {
        self.level_in(&self.tables.references, bid)
    }

    /// c of a bid; a component that does not read c is settled as if c were r.
    #[inline(always)]
    fn correct_of(&self, bid: u8) -> u32 {
        if reads_correct(self.events.event(bid).component()) {
            self.level_in(self.tables.correct(), bid)
        } else {
            self.reference_of(bid)
        }
    }

    /// Writes a of every event of a list. All of them before any is read: a column that was written just now, in halves of
    /// vectors, has the reader of a vector wait.
    fn columns<'c>(&self, list: &[u8], columns: &'c mut [Hours]) -> &'c [Hours] {
        for (&place, a) in list.iter().zip(&mut *columns) {
            self.events.event(place).put_a(a);
        }
        columns
    }

    #[inline(always)]
    fn level_in(&self, levels: &Levels, bid: u8) -> u32 {
        let component = self.events.event(bid).component();
        levels.level(self.tables.places[usize::from(bid)], component)
    }
}

/// 0, or the first number that the case breaks, in the order in which they are checked.
pub fn refusal(file: &[u8], correction: &[u8], rows_len: usize) -> u8 {
    let mut tables = Tables::EMPTY;
    tables.check(file, correction, rows_len).err().unwrap_or(0)
}

/// Settles a case into the rows buffer.
///
/// On a refusal the buffer is untouched. Otherwise all 128 bytes of each row are written, and the bytes beyond the last
/// row are untouched.
pub fn settle(file: &[u8], correction: &[u8], rows: &mut [u8]) -> Outcome {
    let mut tables = Tables::EMPTY;
    let sections = match tables.check(file, correction, rows.len()) {
        Ok(sections) => sections,
        Err(number) => return Outcome::Refused(number),
    };
    let events = Events::new(&sections);
    let parties = Parties::of(&events, &tables);
    let case = Case {
        tables: &tables,
        past: Past::new(sections.past),
        events,
        parties: &parties,
    };
    let lists = [List::Withheld, List::Dispatch, List::Times];
    let sums: usize = lists.into_iter().map(|list| parties.count(list)).sum();
    let mut words = vec![0; 24 * (sums + parties.most_columns())];
    let (hours, _) = words.as_chunks_mut();
    let (sums, columns) = hours.split_at_mut(sums);
    let scratch = &mut Scratch { sums, columns };
    let (rows, _) = rows.as_chunks_mut::<ROW_BYTES>();
    let penalties = power::settle_withheld(&case, scratch, rows)
        + power::settle_dispatch(&case, scratch, rows)
        + fuel::settle(&case, scratch, rows);
    let make_ups = bids::settle(&case, scratch, rows);
    times::settle(&case, scratch, rows);
    bids::settle_maximums(&case, scratch, rows);
    Outcome::Settled {
        rows: case.events.len(),
        penalties,
        make_ups,
    }
}

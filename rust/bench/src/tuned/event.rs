//! The events: their fields, and the check of them all for the numbers 10 to 14, and 17 to 19.

use super::Tables;
use super::calendar::{CALENDAR_DAYS, is_period_of};
use super::columns::Hours;
use super::faults::Faults;
use super::levels::reads_correct;
use super::limits::{Limits, Outside};
use super::sections::{EVENT_BYTES, Sections, records};
use super::words::{u16_at, u32_at};

pub const BIDS: u8 = 4;
pub const DAY_AHEAD: u8 = 0;
pub const REAL_TIME: u8 = 1;

const CELL_BYTES: usize = 12;
const CELLS_BYTES: usize = 24 * CELL_BYTES;
/// Where the two bytes of a unit's number stand in version 1.
const OLD_FIELD: usize = 2;

/// The events of a case.
pub struct Events<'a> {
    section: &'a [u8],
    /// Bytes of an event in the version of the file.
    width: usize,
}

/// The bytes of an event that both versions have.
#[derive(Clone, Copy)]
pub struct Event<'a> {
    bytes: &'a [u8; EVENT_BYTES],
}

impl<'a> Events<'a> {
    pub fn new(sections: &Sections<'a>) -> Events<'a> {
        Events {
            section: sections.events,
            width: EVENT_BYTES + sections.added,
        }
    }

    pub fn len(&self) -> usize {
        self.section.len() / self.width
    }

    pub fn iter(&self) -> impl Iterator<Item = Event<'a>> {
        let records = self.section.chunks_exact(self.width);
        records.filter_map(|record| {
            Some(Event {
                bytes: record.first_chunk()?,
            })
        })
    }

    /// The event at a place.
    #[inline(always)]
    pub fn event(&self, place: u8) -> Event<'a> {
        let bytes = self.section[usize::from(place) * self.width..].first_chunk();
        Event {
            bytes: bytes.expect("places are those of events"),
        }
    }
}

impl<'a> Event<'a> {
    #[inline(always)]
    pub fn kind(self) -> u8 {
        self.bytes[0]
    }

    #[inline(always)]
    pub fn market(self) -> u8 {
        self.bytes[1]
    }

    #[inline(always)]
    pub fn period(self) -> u32 {
        u16_at(self.bytes, 4)
    }

    #[inline(always)]
    pub fn component(self) -> u8 {
        self.bytes[6]
    }

    #[inline(always)]
    pub fn impact(self) -> u8 {
        self.bytes[7]
    }

    #[inline(always)]
    pub fn day(self) -> u32 {
        u32_at(self.bytes, 8)
    }

    #[inline(always)]
    pub fn p(self) -> u32 {
        u32_at(self.bytes, 12)
    }

    #[inline(always)]
    pub fn q(self) -> u32 {
        u32_at(self.bytes, 16)
    }

    #[inline(always)]
    pub fn r(self) -> u32 {
        u32_at(self.bytes, 20)
    }

    /// The day, P, Q and R.
    #[inline(always)]
    pub fn head_words(self) -> [u32; 4] {
        [self.day(), self.p(), self.q(), self.r()]
    }

    /// The 24 hour cells.
    #[inline(always)]
    pub fn cells(self) -> &'a [u8; CELLS_BYTES] {
        let cells = self.bytes.last_chunk();
        cells.expect("an event ends with its cells")
    }

    /// Writes a of every hour.
    #[inline(always)]
    pub fn put_a(self, a: &mut Hours) {
        put_column::<0>(self.cells(), a);
    }

    /// Writes b of every hour.
    #[inline(always)]
    pub fn put_b(self, b: &mut Hours) {
        put_column::<1>(self.cells(), b);
    }

    /// b of every hour.
    #[inline(always)]
    pub fn b(self) -> Hours {
        column::<1>(self.cells())
    }

    /// m of every hour.
    #[inline(always)]
    pub fn m(self) -> Hours {
        column::<2>(self.cells())
    }

    /// What events are ordered by: day, kind, market, unit and component. The fields have room where they break no
    /// number that is checked before the order.
    #[inline(always)]
    fn key(self, unit: u32) -> u64 {
        u64::from(self.day()) << 40
            | u64::from(self.kind()) << 36
            | u64::from(self.market()) << 32
            | u64::from(unit) << 8
            | u64::from(self.component())
    }

    /// What the events of one day, kind and market have in common.
    #[inline(always)]
    pub fn run(self) -> u64 {
        u64::from(self.day()) << 16 | u64::from(u16_at(self.bytes, 0))
    }
}

/// One word of every hour cell. A call of its own: among other code the compiler makes no vectors of these loads.
#[inline(never)]
fn column<const WORD: usize>(cells: &[u8; CELLS_BYTES]) -> Hours {
    let mut hours = [0; 24];
    put_words::<WORD>(cells, &mut hours);
    hours
}

/// The same into a place for it.
#[inline(never)]
fn put_column<const WORD: usize>(cells: &[u8; CELLS_BYTES], hours: &mut Hours) {
    put_words::<WORD>(cells, hours);
}

#[inline(always)]
fn put_words<const WORD: usize>(cells: &[u8; CELLS_BYTES], hours: &mut Hours) {
    for (hour, word) in hours.iter_mut().enumerate() {
        *word = u32_at(cells, CELL_BYTES * hour + 4 * WORD);
    }
}

impl Tables {
    /// Checks the events, and keeps the places of their units.
    #[inline(never)]
    pub fn check_events<const ADDED: usize>(&mut self, section: &[u8], faults: &mut Faults) {
        let (units, references) = (&self.units, &self.references);
        let correct = if self.is_corrected {
            &self.correction
        } else {
            references
        };
        let mut outside = Outside::default();
        let (mut misnumbered, mut marked, mut lacking) = (false, false, false);
        let (mut late, mut in_other_period) = (false, false);
        let (mut unordered, mut unlisted) = (false, false);
        let mut least = 0;
        let records = records::<EVENT_BYTES, ADDED>(section, OLD_FIELD);
        for (record, kept) in records.zip(&mut self.places) {
            let event = Event {
                bytes: record.bytes,
            };
            let (day, component) = (event.day(), event.component());
            let place = units.place(record.unit);
            unlisted |= place.is_none();
            let place = place.unwrap_or(0);
            *kept = place;

            let limits = Limits::of(event);
            outside.hold(event, limits, units.unit(place).capability);
            marked |= limits.bars_impact(event.impact());
            misnumbered |= record.misnumbered;
            late |= day >= CALENDAR_DAYS;
            in_other_period |= !is_period_of(event.period(), day);
            let key = event.key(record.unit);
            unordered |= key < least;
            least = key.wrapping_add(1);
            let lacks_level = references.lacks(place, component)
                | (reads_correct(component) & correct.lacks(place, component));
            lacking |= (event.kind() == BIDS) & lacks_level;
        }
        outside.note(faults);
        faults.note(17, misnumbered);
        faults.note(10, marked);
        faults.note(18, late);
        faults.note(19, in_other_period);
        faults.note(11, unordered);
        faults.note(12, unlisted);
        faults.note(14, lacking);
    }
}

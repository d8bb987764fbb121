//! Reference levels, of the case and of a correction: the numbers 7 and 8.

use super::faults::Faults;
use super::sections::{MOST_REFERENCES, MOST_UNITS, REFERENCE_BYTES, is_of_records, records};
use super::units::Units;
use super::words::{u16_at, u32_at};

const COMPONENTS: usize = 9;
/// In place of a level that there is not.
const NONE: u32 = 0;

/// The levels of the components of each unit, by its place: one more than they are, so that 0 is for none.
pub struct Levels {
    levels: [[u32; COMPONENTS]; MOST_UNITS],
}

impl Levels {
    pub const EMPTY: Levels = Levels {
        levels: [[NONE; COMPONENTS]; MOST_UNITS],
    };

    /// Reads the section of references.
    pub fn read_references<const ADDED: usize>(
        &mut self,
        section: &[u8],
        units: &Units,
        faults: &mut Faults,
    ) {
        let (misnumbered, broken) = self.read::<ADDED>(section, units);
        faults.note(17, misnumbered);
        faults.note(7, broken);
    }

    /// Reads a correction that has any byte.
    pub fn read_correction<const ADDED: usize>(
        &mut self,
        correction: &[u8],
        units: &Units,
        faults: &mut Faults,
    ) {
        if is_of_records(correction, REFERENCE_BYTES + ADDED, MOST_REFERENCES) {
            let (misnumbered, broken) = self.read::<ADDED>(correction, units);
            faults.note(8, misnumbered | broken);
        } else {
            faults.note(8, true);
        }
    }

    /// Whether a record has no unit number, and whether one breaks a limit.
    fn read<const ADDED: usize>(&mut self, section: &[u8], units: &Units) -> (bool, bool) {
        let (mut misnumbered, mut broken) = (false, false);
        let mut least = 0;
        for record in records::<REFERENCE_BYTES, ADDED>(section, 0) {
            // The spare byte behind the component makes it too large.
            let component = u16_at(record.bytes, 2);
            let level = u32_at(record.bytes, 4);
            let highest = if component <= 2 {
                1_000_000
            } else {
                1_000_000_000
            };
            let key = u64::from(record.unit) << 8 | u64::from(component);
            let place = units.place(record.unit);
            misnumbered |= record.misnumbered;
            broken |= (component >= COMPONENTS as u32)
                | (level > highest)
                | place.is_none()
                | (key < least);
            least = key + 1;
            self.levels[usize::from(place.unwrap_or(0)) % MOST_UNITS]
                [(component as usize).min(COMPONENTS - 1)] = level.wrapping_add(1);
        }
        (misnumbered, broken)
    }

    #[inline(always)]
    fn kept(&self, place: u8, component: u8) -> u32 {
        self.levels[usize::from(place) % MOST_UNITS][usize::from(component).min(COMPONENTS - 1)]
    }

    /// The level of a component of the unit at a place, where there is one.
    #[inline(always)]
    pub fn level(&self, place: u8, component: u8) -> u32 {
        self.kept(place, component).wrapping_sub(1)
    }

    /// Whether there is none.
    #[inline(always)]
    pub fn lacks(&self, place: u8, component: u8) -> bool {
        self.kept(place, component) == NONE
    }
}

/// Whether bids of a component read c.
#[inline(always)]
pub fn reads_correct(component: u8) -> bool {
    matches!(component, 0 | 1 | 3)
}

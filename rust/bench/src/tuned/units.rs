//! The units and their parties: the number 6.

use super::faults::Faults;
use super::index::Index;
use super::sections::{MOST_UNITS, UNIT_BYTES, records};
use super::words::{u16_at, u32_at};

const HIGHEST_CAPABILITY: u32 = 50_000;
const HIGHEST_RATE: u32 = 50_000;
const HIGHEST_AVERAGE_PRICE: u32 = 1_000_000;
const MOST_CONSTRAINED_HOURS: u32 = 8_784;

#[derive(Clone, Copy)]
pub struct Unit {
    pub capability: u32,
    pub response_rate: u32,
    pub average_price: u32,
    pub constrained_hours: u32,
    /// Every hour where the unit is in a Constrained Area, otherwise none: the hours that can be tight.
    pub constrained: u32,
    /// The place of its party.
    pub party: u32,
}

/// The units by their places, which are in the order of their numbers.
pub struct Units {
    places: Index,
    units: [Unit; MOST_UNITS],
    parties: Index,
    /// The capability of all units of a party.
    party_capability: [u32; MOST_UNITS],
}

impl Unit {
    const NONE: Unit = Unit {
        capability: 0,
        response_rate: 0,
        average_price: 0,
        constrained_hours: 0,
        constrained: 0,
        party: 0,
    };
}

impl Units {
    pub const EMPTY: Units = Units {
        places: Index::EMPTY,
        units: [Unit::NONE; MOST_UNITS],
        parties: Index::EMPTY,
        party_capability: [0; MOST_UNITS],
    };

    /// Reads the section of units.
    pub fn read<const ADDED: usize>(&mut self, section: &[u8], faults: &mut Faults) {
        let (mut misnumbered, mut broken) = (false, false);
        let mut least = 0;
        let mut party_count = 0;
        let records = records::<UNIT_BYTES, ADDED>(section, 0);
        for (place, (record, unit)) in records.zip(&mut self.units).enumerate() {
            let (number, bytes) = (record.unit, record.bytes);
            let area = u32_at(bytes, 4);
            let capability = u32_at(bytes, 8);
            let response_rate = u32_at(bytes, 12);
            let average_price = u32_at(bytes, 16);
            let constrained_hours = u32_at(bytes, 20);
            // Spare bytes that are not 0 make the area or the hours too large.
            broken |= (area > 1)
                | (capability.wrapping_sub(1) >= HIGHEST_CAPABILITY)
                | (response_rate > HIGHEST_RATE)
                | (average_price > HIGHEST_AVERAGE_PRICE)
                | (constrained_hours > MOST_CONSTRAINED_HOURS)
                | (u64::from(number) < least);
            misnumbered |= record.misnumbered;
            least = u64::from(number) + 1;
            self.places.insert(number, place as u8);
            let party = self.parties.insert(u16_at(bytes, 2), party_count);
            party_count += u8::from(party == party_count);
            let party_capability = &mut self.party_capability[usize::from(party) % MOST_UNITS];
            *party_capability = party_capability.wrapping_add(capability);
            *unit = Unit {
                capability,
                response_rate,
                average_price,
                constrained_hours,
                constrained: if area == 1 { u32::MAX } else { 0 },
                party: u32::from(party),
            };
        }
        faults.note(17, misnumbered);
        faults.note(6, broken);
    }

    /// The place of the unit with a number.
    #[inline(always)]
    pub fn place(&self, number: u32) -> Option<u8> {
        self.places.place(number)
    }

    /// The place of the party with a group number, where one of its units is listed.
    #[inline(always)]
    pub fn party(&self, group: u32) -> Option<u32> {
        self.parties.place(group).map(u32::from)
    }

    /// The unit at a place. Places are below 64: the remainder is the place, and no bound is asked for.
    #[inline(always)]
    pub fn unit(&self, place: u8) -> &Unit {
        &self.units[usize::from(place) % MOST_UNITS]
    }

    /// The capability of a party, of all its units in any area.
    #[inline(always)]
    pub fn party_capability(&self, party: u32) -> u32 {
        self.party_capability[party as usize % MOST_UNITS]
    }
}

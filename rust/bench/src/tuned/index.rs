//! The places of up to 64 numbers, found by their bits.

const SLOTS: usize = 256;
const FREE: u32 = 0;

/// A table with open addressing: a slot has a number of up to 20 bits and, in its low byte, one more than the number's
/// place. At most a quarter of the slots are taken, so that most numbers are found where they are looked for first.
pub struct Index {
    slots: [u32; SLOTS],
}

impl Index {
    pub const EMPTY: Index = Index {
        slots: [FREE; SLOTS],
    };

    /// The slot that has a number, or that it would go to.
    #[inline(always)]
    fn slot(&self, number: u32) -> usize {
        // The high bits of this product are spread whatever numbers there are: neighbours, or such as end alike.
        let mut slot = (number.wrapping_mul(0x9E37_79B1) >> 24) as u8;
        loop {
            let held = self.slots[usize::from(slot)];
            if held >> 8 == number || held == FREE {
                return usize::from(slot);
            }
            slot = slot.wrapping_add(1);
        }
    }

    /// The place of a number.
    #[inline(always)]
    pub fn place(&self, number: u32) -> Option<u8> {
        (self.slots[self.slot(number)] as u8).checked_sub(1)
    }

    /// Gives a number a place, unless it has one; the place that it then has.
    #[inline(always)]
    pub fn insert(&mut self, number: u32, place: u8) -> u8 {
        let slot = &mut self.slots[self.slot(number)];
        if *slot == FREE {
            *slot = number << 8 | u32::from(place + 1);
        }
        *slot as u8 - 1
    }
}

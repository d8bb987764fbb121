//! The numbers that a case breaks.

/// The numbers that are looked for after 5, in the order in which they are checked.
const CHECKED: [u8; 13] = [17, 6, 7, 8, 9, 10, 18, 19, 11, 12, 13, 14, 15];

/// A bit for each number that was found, whatever is found before or after it.
#[derive(Clone, Copy, Default)]
pub struct Faults(u32);

impl Faults {
    /// Notes a number where it is broken.
    #[inline(always)]
    pub fn note(&mut self, number: u8, broken: bool) {
        self.0 |= u32::from(broken) << number;
    }

    /// The number that the case is refused with.
    pub fn first(self) -> Option<u8> {
        CHECKED.into_iter().find(|number| self.0 >> number & 1 == 1)
    }
}

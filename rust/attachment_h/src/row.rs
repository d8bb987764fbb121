//! A row of the rows buffer: docs/FORMAT.md.

use crate::layout::{HOURS, ROW_BYTES, u16_at, u32_at, u64_at};
use crate::numbers::{Cents, Mask, Multiplier};

/// The row of an event, as a settlement wrote it. What a kind lacks is 0.
#[derive(Clone, Debug, Default, PartialEq, Eq)]
pub struct Row {
    /// The flagged hours.
    pub flags: Mask,
    /// The mitigated hours.
    pub mitigated: Mask,
    /// The penalty.
    pub penalty: Cents,
    /// The make-up.
    pub make_up: Cents,
    /// The multiplier.
    pub multiplier: Multiplier,
    /// N3.
    pub n3: u16,
    /// N2.
    pub n2: u16,
    /// The bids in force, hour by hour.
    pub bids: [i32; HOURS],
}

impl Row {
    /// The row of an event in a settled buffer.
    pub fn of(rows: &[u8], event: usize) -> Row {
        let row = &rows[ROW_BYTES * event..ROW_BYTES * (event + 1)];
        Row {
            flags: Mask(u32_at(row, 0)),
            mitigated: Mask(u32_at(row, 4)),
            penalty: Cents(u64_at(row, 8)),
            make_up: Cents(u64_at(row, 16)),
            multiplier: Multiplier(row[24]),
            n3: u16_at(row, 26),
            n2: u16_at(row, 28),
            bids: std::array::from_fn(|hour| u32_at(row, 32 + 4 * hour).cast_signed()),
        }
    }

    /// The first rows of a settled buffer.
    pub fn first(rows: &[u8], count: usize) -> Vec<Row> {
        (0..count).map(|event| Row::of(rows, event)).collect()
    }
}

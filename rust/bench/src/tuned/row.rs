//! The rows.

/// Bytes of a row.
pub const ROW_BYTES: usize = 128;

const HEAD_BYTES: usize = 32;
const BIDS_BYTES: usize = 96;

/// The row of an event, but for its bids in force.
#[derive(Default)]
pub struct Row {
    pub flags: u32,
    pub mitigated: u32,
    pub penalty: u64,
    pub make_up: u64,
    /// In halves.
    pub multiplier: u64,
    pub n3: u64,
    pub n2: u64,
}

impl Row {
    /// Writes the row of an event that has no bids.
    #[inline(always)]
    pub fn put(&self, row: &mut [u8; ROW_BYTES]) {
        *self.put_head(row) = [0; BIDS_BYTES];
    }

    /// Writes all but the bids in force, and gives the bytes for them.
    #[inline(always)]
    pub fn put_head<'a>(&self, row: &'a mut [u8; ROW_BYTES]) -> &'a mut [u8; BIDS_BYTES] {
        let (head, bids) = row
            .split_last_chunk_mut::<BIDS_BYTES>()
            .expect("a row ends with its bids");
        let words = [
            u64::from(self.flags) | u64::from(self.mitigated) << 32,
            self.penalty,
            self.make_up,
            self.multiplier | self.n3 << 16 | self.n2 << 32,
        ];
        for (bytes, word) in head.as_chunks_mut::<8>().0.iter_mut().zip(words) {
            *bytes = word.to_le_bytes();
        }
        bids
    }
}

const _: () = assert!(HEAD_BYTES + BIDS_BYTES == ROW_BYTES);

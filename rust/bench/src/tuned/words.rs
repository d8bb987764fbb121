//! Little-endian numbers in records of a known length: at a constant place no read of them asks for a bound.

/// The u16 at a place.
#[inline(always)]
pub fn u16_at<const N: usize>(bytes: &[u8; N], at: usize) -> u32 {
    u32::from(u16::from_le_bytes(bytes_at(bytes, at)))
}

/// The u32 at a place.
#[inline(always)]
pub fn u32_at<const N: usize>(bytes: &[u8; N], at: usize) -> u32 {
    u32::from_le_bytes(bytes_at(bytes, at))
}

/// Taken as one array, and not byte by byte, so that they are read at once.
#[inline(always)]
fn bytes_at<const N: usize, const WIDTH: usize>(bytes: &[u8; N], at: usize) -> [u8; WIDTH] {
    *bytes[at..].first_chunk().expect("a place in the record")
}

//! Loops over the 24 hours of an event, for the compiler to make vectors of.
//!
//! Each is a call of its own: in a larger function the compiler takes the hours one by one.

use std::hint::black_box;

/// A word for each hour.
pub type Hours = [u32; 24];

/// The bit of each hour in a mask. Read from memory it is a vector that masks are made of.
static BITS: Hours = {
    let mut bits = [0; 24];
    let mut hour = 0;
    while hour < 24 {
        bits[hour] = 1 << hour;
        hour += 1;
    }
    bits
};

/// The mask of the hours that a test finds.
#[inline(always)]
fn hours_where(test: impl Fn(usize) -> bool) -> u32 {
    let mut found = [0; 24];
    for (hour, found) in found.iter_mut().enumerate() {
        *found = u8::from(test(hour));
    }
    // The compiler makes vectors of this loop only where it does not see that the bytes become bits.
    let found = black_box(found);
    let mut mask = 0;
    for (place, eight) in found.as_chunks().0.iter().enumerate() {
        mask |= bits_of(*eight) << (8 * place);
    }
    mask
}

/// Eight bytes of 0 or 1 as eight bits: each byte meets the factor's bit that brings it to its place in the highest byte,
/// and no two come to one place.
#[inline(always)]
fn bits_of(eight: [u8; 8]) -> u32 {
    (u64::from_le_bytes(eight).wrapping_mul(0x0102_0408_1020_4080) >> 56) as u32
}

/// All ones in an hour of a mask, otherwise 0.
#[inline(always)]
fn in_hour(mask: u32, hour: usize) -> u32 {
    if mask & BITS[hour] != 0 { u32::MAX } else { 0 }
}

/// Adds hour by hour.
#[inline(never)]
pub fn add(sums: &mut Hours, a: &Hours) {
    for hour in 0..24 {
        sums[hour] += a[hour];
    }
}

/// Adds what is above r, hour by hour.
#[inline(never)]
pub fn add_increases(sums: &mut Hours, a: &Hours, r: u32) {
    for hour in 0..24 {
        let increase = a[hour].cast_signed() - r.cast_signed();
        sums[hour] += increase.max(0).cast_unsigned();
    }
}

/// The hours above a line.
#[inline(never)]
pub fn above(a: &Hours, line: i32) -> u32 {
    hours_where(|hour| a[hour].cast_signed() > line)
}

/// The hours below a line.
#[inline(never)]
pub fn below(a: &Hours, line: i32) -> u32 {
    hours_where(|hour| a[hour].cast_signed() < line)
}

/// The hours in which the one is above its line or the other above its own.
#[inline(never)]
pub fn either_above(a: &Hours, line: u32, sums: &Hours, sum_line: u32) -> u32 {
    hours_where(|hour| {
        (a[hour].cast_signed() > line.cast_signed())
            | (sums[hour].cast_signed() > sum_line.cast_signed())
    })
}

/// The hours of a time that is above one line, or above another while the sum of the times is above its own.
#[inline(never)]
pub fn time_above(a: &Hours, line: i32, sums: &Hours, line_in_sum: i32, sum_line: u32) -> u32 {
    hours_where(|hour| {
        let a = a[hour].cast_signed();
        (a > line) | ((a > line_in_sum) & (sums[hour] > sum_line))
    })
}

/// a × b over the hours of a mask, a negative b counting 0.
#[inline(never)]
pub fn value(a: &Hours, b: &Hours, mask: u32) -> u64 {
    let mut value = 0;
    for hour in 0..24 {
        let price = b[hour].cast_signed().max(0).cast_unsigned() & in_hour(mask, hour);
        value += u64::from(a[hour]) * u64::from(price);
    }
    value
}

/// b over the hours of a mask: at most 24 × 100,000,000, which has room in 32 bits.
#[inline(never)]
pub fn sum(b: &Hours, mask: u32) -> u64 {
    let mut sum = 0;
    for (hour, b) in b.iter().enumerate() {
        sum += b & in_hour(mask, hour);
    }
    u64::from(sum)
}

/// a × b over the hours of a mask, b with its sign.
#[inline(never)]
pub fn energy_value(a: &Hours, b: &Hours, mask: u32) -> i64 {
    // Vectors multiply without sign: b is raised above 0, and what that adds is taken off again.
    const RAISE: u32 = 1_000_000;
    let (mut raised, mut energy) = (0_u64, 0_u32);
    for hour in 0..24 {
        let a = a[hour] & in_hour(mask, hour);
        raised += u64::from(a) * u64::from(b[hour].wrapping_add(RAISE));
        energy += a;
    }
    raised.cast_signed() - i64::from(RAISE) * i64::from(energy)
}

/// m × (the lesser of a and c, less b) over the hours of a mask, an hour below 0 counting 0.
#[inline(never)]
pub fn make_up_value(a: &Hours, b: &Hours, m: &Hours, c: u32, mask: u32) -> u64 {
    let mut value = 0;
    for hour in 0..24 {
        let bid = a[hour].cast_signed().min(c.cast_signed());
        let due = (bid - b[hour].cast_signed()).max(0).cast_unsigned() & in_hour(mask, hour);
        value += u64::from(m[hour]) * u64::from(due);
    }
    value
}

/// Writes a, in the hours of a mask at most the level.
#[inline(never)]
pub fn put_at_most(bids: &mut [u8; 96], a: &Hours, level: u32, mask: u32) {
    put_bids(bids, |hour| {
        let is_over = a[hour].cast_signed() > level.cast_signed();
        if is_over & (in_hour(mask, hour) != 0) {
            level
        } else {
            a[hour]
        }
    });
}

/// Writes a, in the hours of a mask at least the level.
#[inline(never)]
pub fn put_at_least(bids: &mut [u8; 96], a: &Hours, level: u32, mask: u32) {
    put_bids(bids, |hour| {
        let is_under = a[hour].cast_signed() < level.cast_signed();
        if is_under & (in_hour(mask, hour) != 0) {
            level
        } else {
            a[hour]
        }
    });
}

#[inline(always)]
fn put_bids(bids: &mut [u8; 96], bid: impl Fn(usize) -> u32) {
    for (hour, bytes) in bids.as_chunks_mut::<4>().0.iter_mut().enumerate() {
        *bytes = bid(hour).to_le_bytes();
    }
}

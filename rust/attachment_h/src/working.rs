//! The working of one hour: docs/RULES.md, R12.

use crate::{Refused, ffi};

/// One comparison of a conduct test, which fails where `left` exceeds `right`.
#[derive(Clone, Copy, Debug, Default, PartialEq, Eq)]
pub struct Comparison {
    /// The test has this comparison, and what it asks beside it holds, so that it counts.
    pub taken: bool,
    /// 0 where the test has no such comparison.
    pub left: u64,
    /// 0 where the test has no such comparison.
    pub right: u64,
}

/// The working of one hour of one event.
#[derive(Clone, Copy, Debug, PartialEq, Eq)]
pub struct Working {
    /// The hour is flagged: its bit of the row's flag mask.
    pub flagged: bool,
    /// The unit's area is 1 and the hour's bit of P is set.
    pub tight: bool,
    /// The number, 1 to 4, of the first comparison that is taken and fails; 0 where none does. It is
    /// above 0 exactly where the hour is flagged.
    pub failed: u8,
    /// The comparisons of the test, in the order of docs/RULES.md, F, `left` and `right`:
    ///
    /// - kind 1: 10 × a and the capability; a and 1,000 (tight 500); 20 × S and G; S and 2,000 (tight
    ///   1,000)
    /// - kind 2: a and 15 × the response rate; a and 1,000 (tight 500); S and 2,000 (tight 1,000)
    /// - kind 3: how many events of the party-day have the hour in P, and 0
    /// - components 0 and 1: d and the lower of 3 × r and 10,000, taken where a ≥ 2,500; 10 × d × H and
    ///   1,752 × Average Price, taken where Real-Time, tight and H ≥ 1
    /// - component 2: d and the lower of 3 × r and 5,000, taken where a ≥ 500
    /// - component 3: d and 2 × r
    /// - components 4 to 6: d and 180; the total and 360, taken where d > 0
    /// - component 7: a and 2 × r
    /// - component 8: r and 2 × a
    ///
    /// A negative a or d stands here as 0.
    pub comparisons: [Comparison; 4],
    /// The a of the hour's cell as its word stands; of kind 4 the bid is `a.cast_signed()`.
    pub a: u32,
    /// r of kind 4, else 0.
    pub reference: u32,
    /// d = a − r of kind 4 where that is not negative, else 0: d is `increase`, or minus `decrease`, and one
    /// of them is 0.
    pub increase: u32,
    /// −d of kind 4 where d is negative, else 0.
    pub decrease: u64,
    /// S of kinds 1 and 2, else 0.
    pub s: u64,
    /// G of kind 1, else 0.
    pub g: u64,
    /// The positive d of that unit, day, market and hour, added, for components 4 to 6, else 0.
    pub total: u64,
    /// N3 of the event's row.
    pub n3: u16,
    /// N2 of the event's row.
    pub n2: u16,
}

/// The working of an hour, 0 to 23, of an event, from 0 in the file's order.
///
/// Refuses with the number of the case (never 15, since there are no rows), else with 10 where there is
/// no such event or hour.
///
/// ```
/// use attachment_h::{Refused, working};
///
/// let file = include_bytes!("../../../crates/listing/stdin");
/// let hour = working(file, &[], 0, 0)?;
/// // 10 × 501 exceeds the capability.
/// assert_eq!((hour.a, hour.failed, hour.flagged), (501, 1, true));
/// let first = hour.comparisons[0];
/// assert_eq!((first.taken, first.left, first.right), (true, 5_010, 5_000));
/// assert_eq!((hour.s, hour.g, hour.n3, hour.n2), (501, 20_000, 1, 1));
/// assert_eq!(working(file, &[], 0, 24), Err(Refused(10)));
/// # Ok::<(), Refused>(())
/// ```
pub fn working(
    file: &[u8],
    correction: &[u8],
    event: usize,
    hour: usize,
) -> Result<Working, Refused> {
    ffi::working(file, correction, event, hour)
}

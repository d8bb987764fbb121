//! The proved Attachment H settlement, called from Rust.
//!
//! Every function is a call of the archive that `sh scripts/library` builds, with nothing tested here:
//! the proved functions take every value of every argument. Ranges are those of docs/RULES.md, and
//! an argument out of its range is answered with a refusal's number. A case file is of version 1 or 2
//! (docs/FORMAT.md), and every call takes both.
//!
//! ```
//! use attachment_h::{Refused, check, withheld_fails};
//!
//! // ★ 500 of 5,000 in G 20,000 passes; 501 fails.
//! assert_eq!(withheld_fails(500, 5_000, 500, 20_000, false), Ok(false));
//! assert_eq!(withheld_fails(501, 5_000, 501, 20_000, false), Ok(true));
//! // 35 bytes are no case.
//! assert_eq!(check(&[0; 35], &[], 0), Err(Refused(1)));
//! ```

mod calls;
mod ffi;
pub mod layout;
mod money;
mod numbers;
mod row;
mod working;

use std::error::Error;
use std::fmt;

pub use calls::{
    BidHour, Times, bid_fails, bid_in_force, corrected_bid_in_force, dispatch_fails,
    dispatch_penalty, fuel_day_counts, fuel_penalty, line, make_up, mitigated_span, multiplier,
    period_counts, period_of, times_fail, withheld_fails, withheld_penalty,
};
use layout::{ROW_BYTES, Section};
pub use money::{
    Counted, INSTANCES_LENGTH, Instances, MakeUpWorking, PenaltyWorking, instances, instances_into,
    make_up_working, penalty_working, subtotal,
};
pub use numbers::{Cents, Component, Kind, Market, Mask, Multiplier};
pub use row::Row;
pub use working::{Comparison, Working, working};

/// A refusal with its number: 1 to 15 and 17 to 19 for a case, 7 or 10 for a smaller call, 16 for [`line()`]. A working has
/// 10 also for an event or hour that the case lacks, [`subtotal()`] for an event that is no fuel event too, and
/// [`instances_into`] 15 for an `out` that is too short.
#[derive(Clone, Copy, Debug, PartialEq, Eq, PartialOrd, Ord, Hash)]
pub struct Refused(
    /// The number of "What a case can break"; 16 is the line's.
    pub u8,
);

impl fmt::Display for Refused {
    fn fmt(&self, formatter: &mut fmt::Formatter<'_>) -> fmt::Result {
        write!(formatter, "refused {}", self.0)
    }
}

impl Error for Refused {}

impl Refused {
    /// What the number means of a case (docs/RULES.md, L); 16 is of the line (C23).
    pub fn meaning(self) -> &'static str {
        match self.0 {
            1 => "the file's length is outside 36 to 65,000 bytes",
            2 => "the version is neither 1 nor 2",
            3 => "the section count is not 4",
            4 => "the pairs of offset and length don't follow on from byte 36 to the file's end",
            5 => "a section's length is no multiple of its record, or it has too many records",
            6 => "a unit has a field out of its limits, or the unit numbers don't rise strictly",
            7 => {
                "a reference has a field out of its limits or an unlisted unit, or the references don't rise strictly by unit and component"
            }
            8 => {
                "the correction is no multiple of the case's reference width (8 bytes, 12 in version 2), has over 256 records, or one of them breaks the limits or the order of references"
            }
            9 => "a past entry has a field out of its limits",
            10 => "an event has a field out of its limits",
            11 => "the events don't rise strictly by day, kind, market, unit and component",
            12 => "an event's unit is not listed",
            13 => "an event of kind 1 or 2 has an a above its unit's capability",
            14 => {
                "an event of kind 4 has no reference r, or no correct reference c where its component reads one"
            }
            15 => "the rows buffer has fewer than 128 bytes for each event",
            16 => "an argument of the line is out of its range",
            17 => {
                "a version 2 unit, reference or event has an old unit field that is not 0, or a unit number above 999,999"
            }
            18 => "a past entry or an event has a day of 36,525 or later",
            19 => "the capability period of a past entry or an event is not its day's",
            _ => "no limit has this number",
        }
    }
}

/// Checks a case of either version with its correction (empty for none, else of the case's reference width) and the
/// length of its rows buffer; refuses with the number of the first limit that it breaks: 17 is
/// checked after 5, 18 and 19 after 10.
pub fn check(file: &[u8], correction: &[u8], rows_length: usize) -> Result<(), Refused> {
    ffi::check(file, correction, rows_length)
}

/// What a settled case comes to.
#[derive(Clone, Copy, Debug, PartialEq, Eq)]
pub struct Settled {
    /// The row count, one for each event.
    pub rows: usize,
    /// The sum of the rows' penalties.
    pub penalties: Cents,
    /// The sum of the rows' make-ups.
    pub make_ups: Cents,
}

/// Settles a case into `rows`, 128 bytes for each event.
///
/// A refused case leaves `rows` as it was. A settled one has all 128 bytes of each row written, and the
/// bytes beyond the last row are as they were.
///
/// ```
/// use attachment_h::{Cents, Mask, Multiplier, ROWS_LENGTH, Refused, Row, settle};
///
/// let file = include_bytes!("../../../crates/listing/stdin");
/// let mut rows = vec![0; ROWS_LENGTH];
/// let settled = settle(file, &[], &mut rows)?;
/// assert_eq!((settled.rows, settled.penalties), (1, Cents(200_400)));
/// let row = Row::of(&rows, 0);
/// assert_eq!((row.flags, row.multiplier), (Mask(1), Multiplier(2)));
/// assert_eq!((row.penalty, row.n3, row.n2), (Cents(200_400), 1, 1));
/// # Ok::<(), Refused>(())
/// ```
pub fn settle(file: &[u8], correction: &[u8], rows: &mut [u8]) -> Result<Settled, Refused> {
    ffi::settle(file, correction, rows)
}

/// What `out` of [`list_into`] has to have at least.
pub const LISTING_LENGTH: usize = 42_048;

/// The rows of every case.
pub const ROWS_LENGTH: usize = ROW_BYTES * Section::Events.most();

/// That the text buffer of [`list_into`] is shorter than [`LISTING_LENGTH`].
#[derive(Clone, Copy, Debug, PartialEq, Eq)]
pub struct TooShort;

impl fmt::Display for TooShort {
    fn fmt(&self, formatter: &mut fmt::Formatter<'_>) -> fmt::Result {
        write!(
            formatter,
            "the text buffer has fewer than {LISTING_LENGTH} bytes"
        )
    }
}

impl Error for TooShort {}

/// Settles a case with no correction into `rows`, puts its listing, or that of its refusal, into `out` and gives the
/// length of the text. Both buffers are as they were where `out` is too short.
pub fn list_into(file: &[u8], rows: &mut [u8], out: &mut [u8]) -> Result<usize, TooShort> {
    // Every text has a line, so that only a buffer that is too short is answered with 0.
    match ffi::listing(file, rows, out) {
        0 => Err(TooShort),
        length => Ok(length),
    }
}

/// The listing of a case with no correction: a line for each event and one for the totals, or the
/// refusal, each ending in a line feed.
pub fn listing(file: &[u8]) -> String {
    let mut rows = vec![0; ROWS_LENGTH];
    let mut out = vec![0; LISTING_LENGTH];
    let length =
        list_into(file, &mut rows, &mut out).expect("a buffer of the length that is asked for");
    out.truncate(length);
    String::from_utf8(out).expect("digits, spaces, letters and line feeds")
}

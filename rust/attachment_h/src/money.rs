//! The working of an event's money: what its penalty and its make-up payment are made of (docs/RULES.md,
//! S and D), a plant's part of E, and what N3 and N2 counted.

use crate::layout::{HOURS, Section};
use crate::numbers::{Cents, Kind, Mask, Multiplier};
use crate::{Refused, ffi};

/// The working of an event's penalty. What its kind lacks is 0.
#[derive(Clone, Copy, Debug, PartialEq, Eq)]
pub struct PenaltyWorking {
    /// The kind of the event.
    pub kind: Kind,
    /// The multiplier of the row that bears the penalty; of kind 3 this is M.
    pub multiplier: Multiplier,
    /// Of kind 3: X is below $5,000, so that there is no penalty.
    pub below: bool,
    /// N3 of the event's row.
    pub n3: u16,
    /// N2 of the event's row.
    pub n2: u16,
    /// The event whose row bears the penalty: of kind 3 that of the lowest unit of the party-day, else the
    /// event itself.
    pub row: usize,
    /// Of kind 1: the sum of `hours`, in tenths of a cent, also where the event is no instance.
    pub amount: u64,
    /// Of kind 2: the sum of `hours`, in cents, also where impact is 0.
    pub revenue: u64,
    /// Of kind 3: E of the party-day where it is above 0, else 0, in tenths of a cent.
    pub e_positive: u64,
    /// Of kind 3: −E of the party-day where E is below 0, else 0, in tenths of a cent.
    pub e_negative: u64,
    /// Of kind 3: T of the party-day, in cents.
    pub t: u64,
    /// Of kind 3: X = M × E + 20 × T in twentieths of a cent, or 0 if negative.
    pub x: u64,
    /// The penalty of the row `row`.
    pub penalty: Cents,
    /// The terms of the event's own hours, 0 where the hour is not flagged:
    ///
    /// - kind 1: a × (b, or 0 if negative), in tenths of a cent
    /// - kind 2: b, in cents
    /// - kind 3: a × (b, or 0 if negative), in tenths of a cent; an hour is flagged where some event of the
    ///   party-day has it in P
    pub hours: [u64; HOURS],
    /// Of kind 3: a × (−b, or 0 if b is positive) of the event's own hours, in tenths of a cent, 0 where the
    /// hour is not flagged.
    pub losses: [u64; HOURS],
}

impl PenaltyWorking {
    /// E of the party-day with its sign, in tenths of a cent; 0 where the kind is not 3.
    pub fn e(&self) -> i64 {
        match self.e_negative {
            0 => self.e_positive.cast_signed(),
            below => -below.cast_signed(),
        }
    }
}

/// The working of the penalty of an event, from 0 in the file's order.
///
/// Refuses with the number of the case (never 15, since there are no rows), else with 10 where there is
/// no such event.
///
/// ```
/// use attachment_h::{Cents, Multiplier, Refused, penalty_working};
///
/// let file = include_bytes!("../../../crates/listing/stdin");
/// let worked = penalty_working(file, &[], 0)?;
/// // 501 × 4,000 tenths of a cent, times 2 halves.
/// assert_eq!((worked.hours[0], worked.amount), (2_004_000, 2_004_000));
/// assert_eq!((worked.n3, worked.n2, worked.multiplier), (1, 1, Multiplier(2)));
/// assert_eq!((worked.row, worked.penalty), (0, Cents(200_400)));
/// assert_eq!(penalty_working(file, &[], 1), Err(Refused(10)));
/// # Ok::<(), Refused>(())
/// ```
pub fn penalty_working(
    file: &[u8],
    correction: &[u8],
    event: usize,
) -> Result<PenaltyWorking, Refused> {
    ffi::penalty_working(file, correction, event)
}

/// A plant's part of its party-day's E, by the number of its fuel event, from 0 in the file's order; in tenths of a cent.
///
/// That is 10 × the event's Q plus its a × b over the hours that some event of the party-day has in P (docs/RULES.md,
/// R16). The subtotals of a party-day's events add to its E, [`PenaltyWorking::e`].
///
/// Refuses with the number of the case (never 8 or 15, since there is no correction and there are no rows), else with 10
/// where there is no such event, or it is no fuel event.
///
/// ```
/// use attachment_h::layout::{Version, file_in, put_u16, put_u32};
/// use attachment_h::{Refused, penalty_working, subtotal};
///
/// // Units 12 and 13 of one group with their P, their Q, and a and b of hour 0; P of unit 13 has no hour.
/// let (mut units, mut events) = (vec![], vec![]);
/// for (number, p, q, a, b) in [(12, 1, -300_000_i32, 1_000, 700), (13, 0, 100, 10, -3)] {
///     let (mut unit, mut fuel) = (vec![0; 24], vec![0; 312]);
///     put_u16(&mut unit, 0, number);
///     put_u32(&mut unit, 8, 5_000);
///     fuel[0] = 3;
///     put_u16(&mut fuel, 2, number);
///     for (at, value) in [(12, p), (16, q), (24, a), (28, b)] {
///         put_u32(&mut fuel, at, value.cast_unsigned());
///     }
///     units.extend(unit);
///     events.extend(fuel);
/// }
/// let file = file_in(Version::One, &[units, vec![], vec![], events]);
/// // 10 × −300,000 + 1,000 × 700, and 10 × 100 − 10 × 3, since hour 0 is in P of unit 12.
/// assert_eq!(subtotal(&file, 0)?, -2_300_000);
/// assert_eq!(subtotal(&file, 1)?, 970);
/// assert_eq!(penalty_working(&file, &[], 0)?.e(), -2_299_030);
/// assert_eq!(subtotal(&file, 2), Err(Refused(10)));
/// # Ok::<(), Refused>(())
/// ```
pub fn subtotal(file: &[u8], event: usize) -> Result<i64, Refused> {
    ffi::subtotal(file, event)
}

/// What `out` of [`instances_into`] has to have at least.
pub const INSTANCES_LENGTH: usize = 114;

/// Bytes of the events' bits, which those of the past entries follow.
const EVENTS_LENGTH: usize = Section::Events.most() / 8;

/// The records that a count counted beside the event itself, by their places in the file, rising.
#[derive(Clone, Debug, Default, PartialEq, Eq)]
pub struct Counted {
    /// The events.
    pub events: Vec<usize>,
    /// The past entries.
    pub past: Vec<usize>,
}

impl Counted {
    fn of(bits: &[u8]) -> Counted {
        let (events, past) = bits.split_at(EVENTS_LENGTH);
        Counted {
            events: places(events),
            past: places(past),
        }
    }
}

/// The places of the bits that are set.
fn places(bits: &[u8]) -> Vec<usize> {
    (0..8 * bits.len())
        .filter(|place| bits[place / 8] >> (place % 8) & 1 == 1)
        .collect()
}

/// What N3 and N2 of an event counted: nothing where the event is no instance, else N3 − 1 and N2 − 1
/// records.
#[derive(Clone, Debug, Default, PartialEq, Eq)]
pub struct Instances {
    /// What N3 counted, over the event's own period and the two before.
    pub three: Counted,
    /// Of these what N2 counted, over its own period and the one before.
    pub two: Counted,
}

/// Puts what N3 and N2 of an event counted into the first [`INSTANCES_LENGTH`] bytes of `out`, as bits.
///
/// These are for N3 200 bits of the events (25 bytes) and 256 of the past entries (32 bytes), then the same
/// for N2; event or entry j is bit j % 8 of byte j / 8 of its list. The bytes of `out` beyond them are as they
/// were.
///
/// Refuses with the number of the case (never 15, since there are no rows), else with 10 where there is
/// no such event, else with 15 where `out` is too short; then `out` is as it was.
pub fn instances_into(
    file: &[u8],
    correction: &[u8],
    event: usize,
    out: &mut [u8],
) -> Result<(), Refused> {
    ffi::instances(file, correction, event, out)
}

/// What N3 and N2 of an event, from 0 in the file's order, counted.
///
/// Refuses with the number of the case (never 15, since there are no rows), else with 10 where there is
/// no such event.
///
/// ```
/// use attachment_h::{Instances, Refused, instances};
///
/// let file = include_bytes!("../../../crates/listing/stdin");
/// // N3 and N2 are 1: the event itself, and no other.
/// assert_eq!(instances(file, &[], 0)?, Instances::default());
/// assert_eq!(instances(file, &[], 1), Err(Refused(10)));
/// # Ok::<(), Refused>(())
/// ```
pub fn instances(file: &[u8], correction: &[u8], event: usize) -> Result<Instances, Refused> {
    let mut out = [0; INSTANCES_LENGTH];
    instances_into(file, correction, event, &mut out)?;
    let (three, two) = out.split_at(INSTANCES_LENGTH / 2);
    Ok(Instances {
        three: Counted::of(three),
        two: Counted::of(two),
    })
}

/// The working of a bid's make-up payment. All of it is 0 where the event is no bid.
#[derive(Clone, Copy, Debug, PartialEq, Eq)]
pub struct MakeUpWorking {
    /// r.
    pub reference: u32,
    /// c, of components 0, 1 and 3, which read it; else 0.
    pub correct: u32,
    /// The mitigated hours of the row.
    pub mitigated: Mask,
    /// Of the mitigated hours those whose bid is in force again as it was bid: of components 1 and 3 with c
    /// other than r, where the bid passes the conduct test of its component with c in place of r.
    pub restored: Mask,
    /// Of component 0: the sum of `hours`, in tenths of a cent, also where c is r and nothing is due.
    pub tenths: u64,
    /// The make-up of the row.
    pub make_up: Cents,
    /// Of component 0: m × (the lesser of a and c, less b, or 0 if negative) of each mitigated hour, in
    /// tenths of a cent.
    pub hours: [u64; HOURS],
}

/// The working of the make-up payment of an event, from 0 in the file's order.
///
/// Refuses with the number of the case (never 15, since there are no rows), else with 10 where there is
/// no such event.
///
/// ```
/// use attachment_h::layout::{Version, file_in, put_u16, put_u32};
/// use attachment_h::{Cents, Mask, Refused, make_up_working};
///
/// let (mut unit, mut reference, mut bids) = (vec![0; 24], vec![0; 8], vec![0; 312]);
/// put_u16(&mut unit, 0, 12);
/// put_u32(&mut unit, 8, 5_000);
/// // r of energy is 2,000, and c is 6,000.
/// put_u16(&mut reference, 0, 12);
/// put_u32(&mut reference, 4, 2_000);
/// let mut correction = reference.clone();
/// put_u32(&mut correction, 4, 6_000);
/// // Unit 12 bids 9,000 for 1,000 in hour 0, at a price of 5,000 and with impact.
/// bids[0] = 4;
/// put_u16(&mut bids, 2, 12);
/// put_u32(&mut bids, 16, 1);
/// for (at, value) in [(24, 9_000), (28, 5_000), (32, 1_000)] {
///     put_u32(&mut bids, at, value);
/// }
/// let file = file_in(Version::One, &[unit, reference, vec![], bids]);
/// let worked = make_up_working(&file, &correction, 0)?;
/// assert_eq!((worked.reference, worked.correct), (2_000, 6_000));
/// // 1,000 × (6,000 − 5,000) tenths of a cent.
/// assert_eq!((worked.mitigated, worked.hours[0]), (Mask(1), 1_000_000));
/// assert_eq!((worked.tenths, worked.make_up), (1_000_000, Cents(100_000)));
/// # Ok::<(), Refused>(())
/// ```
pub fn make_up_working(
    file: &[u8],
    correction: &[u8],
    event: usize,
) -> Result<MakeUpWorking, Refused> {
    ffi::make_up_working(file, correction, event)
}

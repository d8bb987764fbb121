//! The functions of the archive, as `include/attachment_h.h` has them.
//!
//! Nothing compares these declarations with `crates/api/src`: a change there is made here and in the
//! header too. They have no `requires`, so those that take plain numbers are safe for all of them.

#![allow(unsafe_code)]

mod money;

use crate::calls::Times;
use crate::numbers::{Cents, Mask, Multiplier};
use crate::{Comparison, Refused, Settled, Working};
pub use money::{instances, make_up_working, penalty_working, subtotal};

/// The refusal's number, or 0 and the figure.
#[repr(C)]
pub struct Answer {
    number: u8,
    figure: u64,
}

/// The refusal's number, or 0 and which times fail.
#[repr(C)]
pub struct TimeAnswer {
    number: u8,
    start_up: bool,
    minimum_run: bool,
    minimum_down: bool,
}

/// The refusal's number, or 0 and what settling gives.
#[repr(C)]
struct Outcome {
    number: u8,
    rows: usize,
    penalties: u64,
    make_ups: u64,
}

/// The refusal's number, or 0 and the working.
#[repr(C)]
struct Hour {
    number: u8,
    flagged: bool,
    tight: bool,
    failed: u8,
    taken: u8,
    a: u32,
    reference: u32,
    increase: u32,
    decrease: u64,
    s: u64,
    g: u64,
    total: u64,
    n3: u16,
    n2: u16,
    left: [u64; 4],
    right: [u64; 4],
}

const _: () = assert!(size_of::<Answer>() == 16 && align_of::<Answer>() == 8);
const _: () = assert!(size_of::<TimeAnswer>() == 4 && align_of::<TimeAnswer>() == 1);
const _: () = assert!(size_of::<Outcome>() == 32 && align_of::<Outcome>() == 8);
const _: () = assert!(size_of::<Hour>() == 128 && align_of::<Hour>() == 8);

impl Answer {
    fn figure(self) -> Result<u64, Refused> {
        refused(self.number)?;
        Ok(self.figure)
    }

    pub fn verdict(self) -> Result<bool, Refused> {
        Ok(self.figure()? != 0)
    }

    pub fn cents(self) -> Result<Cents, Refused> {
        Ok(Cents(self.figure()?))
    }

    /// A multiplier, which has 6 halves at most.
    pub fn multiplier(self) -> Result<Multiplier, Refused> {
        Ok(Multiplier(self.figure()? as u8))
    }

    /// A capability period, which is 200 at most.
    pub fn period(self) -> Result<u16, Refused> {
        Ok(self.figure()? as u16)
    }

    /// A mask, which stands in the figure as its word.
    pub fn mask(self) -> Result<Mask, Refused> {
        Ok(Mask(self.figure()? as u32))
    }

    /// A bid, which stands in the figure as its word.
    pub fn bid(self) -> Result<i32, Refused> {
        Ok((self.figure()? as u32).cast_signed())
    }

    /// A subtotal, which stands in the figure as its word.
    fn subtotal(self) -> Result<i64, Refused> {
        Ok(self.figure()?.cast_signed())
    }
}

impl TimeAnswer {
    pub fn times(self) -> Result<Times, Refused> {
        refused(self.number)?;
        Ok(Times {
            start_up: self.start_up,
            minimum_run: self.minimum_run,
            minimum_down: self.minimum_down,
        })
    }
}

impl Hour {
    fn comparison(&self, place: usize) -> Comparison {
        Comparison {
            taken: self.taken >> place & 1 == 1,
            left: self.left[place],
            right: self.right[place],
        }
    }

    fn working(self) -> Result<Working, Refused> {
        refused(self.number)?;
        Ok(Working {
            flagged: self.flagged,
            tight: self.tight,
            failed: self.failed,
            comparisons: std::array::from_fn(|place| self.comparison(place)),
            a: self.a,
            reference: self.reference,
            increase: self.increase,
            decrease: self.decrease,
            s: self.s,
            g: self.g,
            total: self.total,
            n3: self.n3,
            n2: self.n2,
        })
    }
}

fn refused(number: u8) -> Result<(), Refused> {
    match number {
        0 => Ok(()),
        number => Err(Refused(number)),
    }
}

unsafe extern "C" {
    fn attachment_h_check(
        file: *const u8,
        file_length: usize,
        correction: *const u8,
        correction_length: usize,
        rows_length: usize,
    ) -> u8;
    fn attachment_h_settle(
        file: *const u8,
        file_length: usize,
        correction: *const u8,
        correction_length: usize,
        rows: *mut u8,
        rows_length: usize,
    ) -> Outcome;
    fn attachment_h_working(
        file: *const u8,
        file_length: usize,
        correction: *const u8,
        correction_length: usize,
        event: usize,
        hour: usize,
    ) -> Hour;
    fn attachment_h_listing(
        file: *const u8,
        file_length: usize,
        rows: *mut u8,
        rows_length: usize,
        out: *mut u8,
        out_length: usize,
    ) -> usize;
    fn attachment_h_withheld_penalty(
        multiplier: u8,
        a: *const u32,
        a_length: usize,
        b: *const i32,
        b_length: usize,
    ) -> Answer;
    fn attachment_h_dispatch_penalty(b: *const u32, b_length: usize) -> Answer;
    pub safe fn attachment_h_bid_fails(
        component: u8,
        reference: u32,
        bid: i32,
        market: u8,
        tight: bool,
        average_price: u32,
        constrained_hours: u16,
    ) -> Answer;
    pub safe fn attachment_h_line(
        component: u8,
        reference: u32,
        market: u8,
        tight: bool,
        average_price: u32,
        constrained_hours: u16,
    ) -> Answer;
    pub safe fn attachment_h_times_fail(
        start_up: i32,
        minimum_run: i32,
        minimum_down: i32,
    ) -> TimeAnswer;
    pub safe fn attachment_h_withheld_fails(
        a: u32,
        capability: u32,
        s: u32,
        g: u32,
        tight: bool,
    ) -> Answer;
    pub safe fn attachment_h_dispatch_fails(a: u32, rate: u32, s: u32, tight: bool) -> Answer;
    pub safe fn attachment_h_multiplier(n3: u32, n2: u32) -> Answer;
    pub safe fn attachment_h_fuel_penalty(e: i64, t: u64, m: u8) -> Answer;
    pub safe fn attachment_h_fuel_day_counts(d: u32, e: u32) -> Answer;
    pub safe fn attachment_h_period_of(day: u32) -> Answer;
    pub safe fn attachment_h_period_counts(k: u8, own: u16, period: u16) -> Answer;
    pub safe fn attachment_h_mitigated_span(hits: u32, run: u32) -> Answer;
    pub safe fn attachment_h_bid_in_force(
        component: u8,
        bid: i32,
        reference: u32,
        mitigated: bool,
    ) -> Answer;
    pub safe fn attachment_h_corrected_bid_in_force(
        component: u8,
        bid: i32,
        reference: u32,
        correct: u32,
        market: u8,
        tight: bool,
        average_price: u32,
        constrained_hours: u16,
        mitigated: bool,
    ) -> Answer;
    pub safe fn attachment_h_make_up(
        bid: i32,
        price: i32,
        megawatts: u32,
        reference: u32,
        correct: u32,
    ) -> Answer;
}

pub fn check(file: &[u8], correction: &[u8], rows_length: usize) -> Result<(), Refused> {
    // SAFETY: both slices are live for the call, which only reads them.
    let number = unsafe {
        attachment_h_check(
            file.as_ptr(),
            file.len(),
            correction.as_ptr(),
            correction.len(),
            rows_length,
        )
    };
    refused(number)
}

pub fn settle(file: &[u8], correction: &[u8], rows: &mut [u8]) -> Result<Settled, Refused> {
    // SAFETY: the slices are live for the call, which only reads the first two, and `rows` overlaps
    // neither of them.
    let outcome = unsafe {
        attachment_h_settle(
            file.as_ptr(),
            file.len(),
            correction.as_ptr(),
            correction.len(),
            rows.as_mut_ptr(),
            rows.len(),
        )
    };
    refused(outcome.number)?;
    Ok(Settled {
        rows: outcome.rows,
        penalties: Cents(outcome.penalties),
        make_ups: Cents(outcome.make_ups),
    })
}

pub fn working(
    file: &[u8],
    correction: &[u8],
    event: usize,
    hour: usize,
) -> Result<Working, Refused> {
    // SAFETY: both slices are live for the call, which only reads them.
    let answer = unsafe {
        attachment_h_working(
            file.as_ptr(),
            file.len(),
            correction.as_ptr(),
            correction.len(),
            event,
            hour,
        )
    };
    answer.working()
}

pub fn listing(file: &[u8], rows: &mut [u8], out: &mut [u8]) -> usize {
    // SAFETY: the slices are live for the call, which only reads the first, and none overlaps another.
    unsafe {
        attachment_h_listing(
            file.as_ptr(),
            file.len(),
            rows.as_mut_ptr(),
            rows.len(),
            out.as_mut_ptr(),
            out.len(),
        )
    }
}

pub fn withheld_penalty(multiplier: u8, a: &[u32], b: &[i32]) -> Answer {
    // SAFETY: both slices are live for the call, which only reads them.
    unsafe { attachment_h_withheld_penalty(multiplier, a.as_ptr(), a.len(), b.as_ptr(), b.len()) }
}

pub fn dispatch_penalty(b: &[u32]) -> Answer {
    // SAFETY: the slice is live for the call, which only reads it.
    unsafe { attachment_h_dispatch_penalty(b.as_ptr(), b.len()) }
}

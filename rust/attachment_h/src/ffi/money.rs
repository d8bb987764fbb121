//! The functions that give the working of an event's money.

use super::{Answer, refused};
use crate::layout::HOURS;
use crate::numbers::{Cents, Kind, Mask, Multiplier};
use crate::{MakeUpWorking, PenaltyWorking, Refused};

/// The refusal's number, or 0 and the working of a penalty.
#[repr(C)]
struct PenaltyTerms {
    number: u8,
    kind: u8,
    multiplier: u8,
    below: bool,
    n3: u16,
    n2: u16,
    row: usize,
    amount: u64,
    revenue: u64,
    e_positive: u64,
    e_negative: u64,
    t: u64,
    x: u64,
    penalty: u64,
    hours: [u64; HOURS],
    losses: [u64; HOURS],
}

/// The refusal's number, or 0 and the working of a make-up payment.
#[repr(C)]
struct MakeUpTerms {
    number: u8,
    reference: u32,
    correct: u32,
    mitigated: u32,
    restored: u32,
    tenths: u64,
    make_up: u64,
    hours: [u64; HOURS],
}

const _: () = assert!(size_of::<PenaltyTerms>() == 456 && align_of::<PenaltyTerms>() == 8);
const _: () = assert!(size_of::<MakeUpTerms>() == 232 && align_of::<MakeUpTerms>() == 8);

impl PenaltyTerms {
    fn working(self) -> Result<PenaltyWorking, Refused> {
        refused(self.number)?;
        Ok(PenaltyWorking {
            kind: Kind(self.kind),
            multiplier: Multiplier(self.multiplier),
            below: self.below,
            n3: self.n3,
            n2: self.n2,
            row: self.row,
            amount: self.amount,
            revenue: self.revenue,
            e_positive: self.e_positive,
            e_negative: self.e_negative,
            t: self.t,
            x: self.x,
            penalty: Cents(self.penalty),
            hours: self.hours,
            losses: self.losses,
        })
    }
}

impl MakeUpTerms {
    fn working(self) -> Result<MakeUpWorking, Refused> {
        refused(self.number)?;
        Ok(MakeUpWorking {
            reference: self.reference,
            correct: self.correct,
            mitigated: Mask(self.mitigated),
            restored: Mask(self.restored),
            tenths: self.tenths,
            make_up: Cents(self.make_up),
            hours: self.hours,
        })
    }
}

unsafe extern "C" {
    fn attachment_h_penalty_working(
        file: *const u8,
        file_length: usize,
        correction: *const u8,
        correction_length: usize,
        event: usize,
    ) -> PenaltyTerms;
    fn attachment_h_subtotal(file: *const u8, file_length: usize, event: usize) -> Answer;
    fn attachment_h_instances(
        file: *const u8,
        file_length: usize,
        correction: *const u8,
        correction_length: usize,
        event: usize,
        out: *mut u8,
        out_length: usize,
    ) -> u8;
    fn attachment_h_make_up_working(
        file: *const u8,
        file_length: usize,
        correction: *const u8,
        correction_length: usize,
        event: usize,
    ) -> MakeUpTerms;
}

pub fn penalty_working(
    file: &[u8],
    correction: &[u8],
    event: usize,
) -> Result<PenaltyWorking, Refused> {
    // SAFETY: both slices are live for the call, which only reads them.
    let terms = unsafe {
        attachment_h_penalty_working(
            file.as_ptr(),
            file.len(),
            correction.as_ptr(),
            correction.len(),
            event,
        )
    };
    terms.working()
}

pub fn subtotal(file: &[u8], event: usize) -> Result<i64, Refused> {
    // SAFETY: the slice is live for the call, which only reads it.
    let answer = unsafe { attachment_h_subtotal(file.as_ptr(), file.len(), event) };
    answer.subtotal()
}

pub fn instances(
    file: &[u8],
    correction: &[u8],
    event: usize,
    out: &mut [u8],
) -> Result<(), Refused> {
    // SAFETY: the slices are live for the call, which only reads the first two, and `out` overlaps
    // neither of them.
    let number = unsafe {
        attachment_h_instances(
            file.as_ptr(),
            file.len(),
            correction.as_ptr(),
            correction.len(),
            event,
            out.as_mut_ptr(),
            out.len(),
        )
    };
    refused(number)
}

pub fn make_up_working(
    file: &[u8],
    correction: &[u8],
    event: usize,
) -> Result<MakeUpWorking, Refused> {
    // SAFETY: both slices are live for the call, which only reads them.
    let terms = unsafe {
        attachment_h_make_up_working(
            file.as_ptr(),
            file.len(),
            correction.as_ptr(),
            correction.len(),
            event,
        )
    };
    terms.working()
}

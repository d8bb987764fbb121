//! A second implementation of the Attachment H settlement, written from the paper of rules and that of later requests
//! alone, its working of the money from docs/RULES.md, R13 to R15 (A15).
//!
//! It is the test oracle and the benchmark peer of the proved program. Everything is read into
//! records first ([`refusal`] says what a case breaks), then settled by group and day.
//!
//! - [`refusal`], [`settle`] and [`listing`] take whole cases.
//! - [`calls`] has the smaller rules on plain numbers.
//! - [`fuel_party_days`] gives E, which the premise of demand 3 is about, and [`subtotal()`] each
//!   plant's part of it.
//! - [`penalty_working()`], [`instances()`] and [`make_up_working()`] give the terms of an event's money,
//!   [`SettledCase`] those of all events of a case that is settled once.

mod calendar;
mod case_file;
mod event_record;
mod instances;
mod layout;
mod make_up_working;
mod penalty_working;
mod rules;
mod settled_case;
mod settlement;
mod subtotal;
mod terms;

pub mod calls;

use std::fmt::Write;

use case_file::{Case, ROW_BYTES, read_case};
use settlement::{Row, settle_case};

pub use instances::{Counted, INSTANCES_BYTES, Instances};
pub use make_up_working::MakeUpWorking;
pub use penalty_working::PenaltyWorking;
pub use settled_case::SettledCase;
pub use settlement::FuelPartyDay;

/// What comes of settling a case.
#[derive(Clone, Copy, Debug, PartialEq, Eq)]
pub enum Outcome {
    /// The case breaks this number; the rows buffer is as it was.
    Refused(u8),
    /// The rows are written.
    Settled {
        /// Number of rows, one for each event.
        rows: usize,
        /// Sum of the rows' penalties, in cents.
        penalties: u64,
        /// Sum of the rows' make-ups, in cents.
        make_ups: u64,
    },
}

/// 0, or the first number that the case breaks: 1 to 5, then 17, 6 to 10, 18 and 19, then 11 to 15.
pub fn refusal(file: &[u8], correction: &[u8], rows_len: usize) -> u8 {
    read_case(file, correction, rows_len).err().unwrap_or(0)
}

/// Settles a case into the rows buffer.
///
/// On a refusal the buffer is untouched. Otherwise all 128 bytes of each row are written, and the
/// bytes beyond the last row are untouched.
pub fn settle(file: &[u8], correction: &[u8], rows: &mut [u8]) -> Outcome {
    let case = match read_case(file, correction, rows.len()) {
        Ok(case) => case,
        Err(number) => return Outcome::Refused(number),
    };
    let settled = settle_case(&case);
    for (row, bytes) in settled.iter().zip(rows.chunks_exact_mut(ROW_BYTES)) {
        bytes.copy_from_slice(&row.to_bytes());
    }
    let (penalties, make_ups) = totals(&settled);
    Outcome::Settled {
        rows: settled.len(),
        penalties,
        make_ups,
    }
}

/// The listing of a case without a correction: a line for each event and one for the totals, or
/// the refusal. Every line ends in one line feed.
pub fn listing(file: &[u8]) -> String {
    // The listing program has a row for every event, so 15 never comes up.
    let case = match read_case(file, &[], usize::MAX) {
        Ok(case) => case,
        Err(number) => return format!("refused {number}\n"),
    };
    let settled = settle_case(&case);
    let mut text = String::new();
    for (event, row) in case.events.iter().zip(&settled) {
        writeln!(
            text,
            "{} {} {} {} {} {} {} {} {} {}",
            event.day,
            event.conduct.kind(),
            event.unit,
            event.market.number(),
            event.conduct.component(),
            row.flags.bits(),
            row.mitigated.bits(),
            row.multiplier,
            row.penalty,
            row.make_up,
        )
        .expect("a String takes every line");
    }
    let (penalties, make_ups) = totals(&settled);
    writeln!(text, "total {penalties} {make_ups}").expect("a String takes every line");
    text
}

/// E and T of every fuel party-day of an accepted case; the number if it is refused.
pub fn fuel_party_days(file: &[u8], correction: &[u8]) -> Result<Vec<FuelPartyDay>, u8> {
    let case: Case = read_case(file, correction, usize::MAX)?;
    Ok(settlement::fuel_party_days(&case))
}

/// The subtotal of a fuel event, signed and in tenths of a cent: 10 × its Q, and its a × b over the
/// union hours of its party-day. Correction and rows have no part in it; the number if the case is
/// refused, else 10 where it has no fuel event of that number.
pub fn subtotal(file: &[u8], event: usize) -> Result<i64, u8> {
    let case: Case = read_case(file, &[], usize::MAX)?;
    subtotal::subtotal(&case, event)
}

/// The working of the penalty of an event; the number if the case is refused, else 10 where it has
/// no such event.
pub fn penalty_working(file: &[u8], correction: &[u8], event: usize) -> Result<PenaltyWorking, u8> {
    SettledCase::of(file, correction)?.penalty_working(event)
}

/// What N3 and N2 of an event counted; refused as [`penalty_working()`] is.
pub fn instances(file: &[u8], correction: &[u8], event: usize) -> Result<Instances, u8> {
    SettledCase::of(file, correction)?.instances(event)
}

/// The working of the make-up payment of an event; refused as [`penalty_working()`] is.
pub fn make_up_working(file: &[u8], correction: &[u8], event: usize) -> Result<MakeUpWorking, u8> {
    SettledCase::of(file, correction)?.make_up_working(event)
}

/// The sums of the rows' penalties and of their make-ups.
fn totals(rows: &[Row]) -> (u64, u64) {
    rows.iter().fold((0, 0), |(penalties, make_ups), row| {
        (penalties + row.penalty, make_ups + row.make_up)
    })
}

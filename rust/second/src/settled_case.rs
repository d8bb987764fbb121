//! A case that is settled once, for the workings of all its events.

use crate::case_file::{Case, read_case};
use crate::instances::{INSTANCES_BYTES, Instances, instances};
use crate::make_up_working::{MakeUpWorking, make_up_working};
use crate::penalty_working::{PenaltyWorking, penalty_working};
use crate::settlement::{Row, settle_case};
use crate::subtotal::subtotal;

/// An accepted case with its rows.
#[derive(Clone, Debug)]
pub struct SettledCase {
    case: Case,
    rows: Vec<Row>,
}

impl SettledCase {
    /// Reads and settles a case, whatever the length of its rows; the number if it is refused.
    pub fn of(file: &[u8], correction: &[u8]) -> Result<SettledCase, u8> {
        let case = read_case(file, correction, usize::MAX)?;
        let rows = settle_case(&case);
        Ok(SettledCase { case, rows })
    }

    /// The working of the penalty of an event; 10 where the case has no such event.
    pub fn penalty_working(&self, event: usize) -> Result<PenaltyWorking, u8> {
        let event = self.place(event)?;
        Ok(penalty_working(&self.case, &self.rows, event))
    }

    /// What N3 and N2 of an event counted; refused as [`SettledCase::penalty_working`] is.
    pub fn instances(&self, event: usize) -> Result<Instances, u8> {
        let event = self.place(event)?;
        Ok(instances(&self.case, &self.rows, event).unwrap_or_default())
    }

    /// The same as bits at the beginning of a buffer; also refused, with 15, where that is too
    /// short. On a refusal the buffer is untouched, and so are the bytes beyond the bits.
    pub fn instances_into(&self, event: usize, out: &mut [u8]) -> Result<(), u8> {
        let counted = self.instances(event)?;
        let bits = out.get_mut(..INSTANCES_BYTES).ok_or(15)?;
        bits.copy_from_slice(&counted.to_bytes());
        Ok(())
    }

    /// The working of the make-up payment of an event; refused as
    /// [`SettledCase::penalty_working`] is.
    pub fn make_up_working(&self, event: usize) -> Result<MakeUpWorking, u8> {
        let event = self.place(event)?;
        Ok(make_up_working(&self.case, &self.rows, event))
    }

    /// The subtotal of a fuel event, whatever the correction; 10 where the case has no fuel event of
    /// that number.
    pub fn subtotal(&self, event: usize) -> Result<i64, u8> {
        subtotal(&self.case, event)
    }

    /// The event, if the case has it.
    fn place(&self, event: usize) -> Result<usize, u8> {
        if event < self.rows.len() {
            Ok(event)
        } else {
            Err(10)
        }
    }
}

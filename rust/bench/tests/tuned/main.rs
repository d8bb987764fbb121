//! The tuned settlement against the second implementation: the outcome, every byte of a rows buffer with something in
//! it, and the number of the check. The cases are those of `rust/attachment_h/tests/settle.rs`, drawn from the same seeds
//! in the same way, most of those of refusals.rs, those that the benchmark times, and others for what only this settlement
//! does: days that it looks up, numbers that it looks for in one place.

mod calendar;
mod numbers;
mod refusals;
mod settlements;

use bench::tuned;
use cases::{Input, Random};
use second::Outcome;

/// What was compared.
#[derive(Debug, Default)]
struct Count {
    inputs: usize,
    /// Of the inputs, such as were tried as version 2 copies too.
    copies: usize,
    accepted: usize,
    refused: usize,
    rows: usize,
    /// Accepted cases with a penalty.
    with_penalties: usize,
    /// Accepted cases with a make-up.
    with_make_ups: usize,
    /// Accepted cases with a correction.
    corrected: usize,
}

impl Count {
    /// Settles an input, and its version 2 copy where it has one, over the same bytes.
    fn settle(&mut self, random: &mut Random, input: &Input, what: &str) -> Outcome {
        let before = noise(random, input.rows_len);
        let outcome = both(&before, input, what);
        if let Some(copy) = input.version_2_copy() {
            assert_eq!(both(&before, &copy, what), outcome, "{what}, copied");
            self.copies += 1;
        }
        self.inputs += 1;
        match outcome {
            Outcome::Refused(_) => self.refused += 1,
            Outcome::Settled {
                rows,
                penalties,
                make_ups,
            } => {
                self.accepted += 1;
                self.rows += rows;
                self.with_penalties += usize::from(penalties > 0);
                self.with_make_ups += usize::from(make_ups > 0);
                self.corrected += usize::from(!input.correction.is_empty());
            }
        }
        outcome
    }

    /// The number of an input, and of its version 2 copy where it has one.
    fn number(&mut self, input: &Input, what: &str) -> u8 {
        let number = number_of(input, what);
        if let Some(copy) = input.version_2_copy() {
            assert_eq!(number_of(&copy, what), number, "{what}, copied");
            self.copies += 1;
        }
        self.inputs += 1;
        if number == 0 {
            self.accepted += 1;
        } else {
            self.refused += 1;
        }
        number
    }
}

/// The outcome of an input over a buffer, in which both implementations agree.
fn both(before: &[u8], input: &Input, what: &str) -> Outcome {
    let (mut rows, mut expected_rows) = (before.to_vec(), before.to_vec());
    let outcome = tuned::settle(&input.file, &input.correction, &mut rows);
    let expected = second::settle(&input.file, &input.correction, &mut expected_rows);
    assert_eq!(outcome, expected, "{what}");
    for (place, (row, expected)) in rows.chunks(128).zip(expected_rows.chunks(128)).enumerate() {
        assert_eq!(row, expected, "{what}, row {place}");
    }
    let number = tuned::refusal(&input.file, &input.correction, input.rows_len);
    match outcome {
        Outcome::Refused(refused) => {
            assert_eq!(number, refused, "{what}");
            assert!(rows == before, "{what}: rows untouched");
        }
        Outcome::Settled { .. } => assert_eq!(number, 0, "{what}"),
    }
    outcome
}

/// The number of an input, in which both implementations agree.
fn number_of(input: &Input, what: &str) -> u8 {
    let number = tuned::refusal(&input.file, &input.correction, input.rows_len);
    let expected = second::refusal(&input.file, &input.correction, input.rows_len);
    assert_eq!(number, expected, "{what}");
    number
}

fn noise(random: &mut Random, length: usize) -> Vec<u8> {
    (0..length).map(|_| random.bits() as u8).collect()
}

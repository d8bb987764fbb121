//! The times of the calls on cases in turn; a single case is a turn of one.

use std::hint::black_box;
use std::time::{Duration, Instant};

use bench::tuned;
use cases::Input;
use cases::case::LARGEST_FILE;
use second::Outcome;

/// A copy is too short for the clock, so that at least so many are timed together.
const COPIES: usize = 64;

/// Bytes of a page of memory.
const PAGE: usize = 4_096;

/// The rounds of a case are taken in so many stretches, in each of which all calls have theirs: a machine that changes
/// its pace does so for all of them.
const STRETCHES: usize = 10;

/// The times of the two calls on one case, in microseconds.
pub struct Calls {
    pub check: f64,
    pub settle: f64,
}

impl Calls {
    fn least(self, other: Calls) -> Calls {
        Calls {
            check: self.check.min(other.check),
            settle: self.settle.min(other.settle),
        }
    }
}

/// The times on one case of a turn, in microseconds: of a copy, of the proved calls, of the tuned ones and of the second
/// implementation's.
pub struct Times {
    bytes: usize,
    copy: f64,
    pub proved: Calls,
    pub tuned: Calls,
    pub second: Calls,
}

/// The columns of a table behind the name of the case, each with its decimals.
const COLUMNS: [(&str, usize); 13] = [
    ("bytes", 0),
    ("copy", 2),
    ("check", 2),
    ("tuned check", 2),
    ("second check", 2),
    ("check/tuned", 2),
    ("check/second", 2),
    ("settle", 2),
    ("tuned settle", 2),
    ("second settle", 2),
    ("settle/tuned", 2),
    ("settle/second", 2),
    ("settle/copy", 1),
];

impl Times {
    /// The times of accepted cases of one length.
    pub fn of(rounds: usize, inputs: &[Input]) -> Times {
        let bytes = inputs[0].file.len();
        assert!(inputs.iter().all(|input| input.file.len() == bytes));
        assert_alike(inputs);
        let stretch = || {
            let rounds = rounds.div_ceil(STRETCHES);
            Times {
                bytes,
                copy: copy(rounds, inputs),
                proved: proved(rounds, inputs),
                tuned: tuned(rounds, inputs),
                second: second(rounds, inputs),
            }
        };
        (1..STRETCHES).fold(stretch(), |times, _| times.least(stretch()))
    }

    fn least(self, other: Times) -> Times {
        Times {
            bytes: self.bytes,
            copy: self.copy.min(other.copy),
            proved: self.proved.least(other.proved),
            tuned: self.tuned.least(other.tuned),
            second: self.second.least(other.second),
        }
    }

    /// Prints the head of a table.
    pub fn print_head() {
        print!("{:>12}", "case");
        for (column, _) in COLUMNS {
            print!(" {column:>6}");
        }
        println!();
    }

    /// Prints one line of a table.
    pub fn print(&self, name: &str) {
        let Times {
            bytes,
            copy,
            proved,
            tuned,
            second,
        } = self;
        let figures = [
            *bytes as f64,
            *copy,
            proved.check,
            tuned.check,
            second.check,
            proved.check / tuned.check,
            proved.check / second.check,
            proved.settle,
            tuned.settle,
            second.settle,
            proved.settle / tuned.settle,
            proved.settle / second.settle,
            proved.settle / copy,
        ];
        print!("{name:>12}");
        for ((column, decimals), figure) in COLUMNS.into_iter().zip(figures) {
            let width = column.len().max(6);
            print!(" {figure:>width$.decimals$}");
        }
        println!();
    }
}

/// The times of the proved calls on accepted cases.
pub fn proved(rounds: usize, inputs: &[Input]) -> Calls {
    let turns = turns(inputs);
    let mut rows = rows_of(inputs);
    Calls {
        check: in_turn(rounds, turns, inputs, |input| {
            let outcome = attachment_h::check(&input.file, &input.correction, input.rows_len);
            black_box(outcome).expect("the case is accepted");
        }),
        settle: in_turn(rounds, turns, inputs, |input| {
            let rows = &mut black_box(&mut rows)[..input.rows_len];
            let outcome = attachment_h::settle(&input.file, &input.correction, rows);
            black_box(outcome).expect("the case is accepted");
        }),
    }
}

fn tuned(rounds: usize, inputs: &[Input]) -> Calls {
    of_rust(rounds, inputs, tuned::refusal, tuned::settle)
}

fn second(rounds: usize, inputs: &[Input]) -> Calls {
    of_rust(rounds, inputs, second::refusal, second::settle)
}

/// The times of calls that are written in Rust on accepted cases.
fn of_rust(
    rounds: usize,
    inputs: &[Input],
    refusal: impl Fn(&[u8], &[u8], usize) -> u8,
    settle: impl Fn(&[u8], &[u8], &mut [u8]) -> Outcome,
) -> Calls {
    let turns = turns(inputs);
    let mut rows = rows_of(inputs);
    Calls {
        check: in_turn(rounds, turns, inputs, |input| {
            let number = refusal(&input.file, &input.correction, input.rows_len);
            assert_eq!(black_box(number), 0);
        }),
        settle: in_turn(rounds, turns, inputs, |input| {
            let rows = &mut black_box(&mut rows)[..input.rows_len];
            black_box(settle(&input.file, &input.correction, rows));
        }),
    }
}

/// A copy is timed to half a page from where the file is in its page: a few bytes from there, in another page, a
/// processor may take twenty times as long.
fn copy(rounds: usize, inputs: &[Input]) -> f64 {
    let bytes = inputs[0].file.len();
    let mut copy = vec![0; bytes + PAGE];
    let start = copy.as_ptr().addr();
    let turns = COPIES.div_ceil(inputs.len());
    in_turn(rounds, turns, inputs, |input| {
        let place = input.file.as_ptr().addr() + PAGE / 2;
        let at = place.wrapping_sub(start) % PAGE;
        black_box(&mut copy)[at..at + bytes].copy_from_slice(&input.file);
    })
}

/// The turns of a round: a call on a small file is too short for the clock, so that a full file's bytes
/// are timed together.
fn turns(inputs: &[Input]) -> usize {
    let bytes: usize = inputs.iter().map(|input| input.file.len()).sum();
    (LARGEST_FILE / bytes).max(1)
}

/// The archive, the tuned settlement and the second implementation accept the cases and settle them alike.
pub fn assert_alike(inputs: &[Input]) {
    for input in inputs {
        let mut rows = vec![0; input.rows_len];
        let outcome = attachment_h::settle(&input.file, &input.correction, &mut rows);
        let settled = outcome.expect("the case is accepted");
        let expected = Outcome::Settled {
            rows: settled.rows,
            penalties: settled.penalties.0,
            make_ups: settled.make_ups.0,
        };
        for settle in [tuned::settle, second::settle] {
            let mut others_rows = vec![0; input.rows_len];
            let outcome = settle(&input.file, &input.correction, &mut others_rows);
            assert_eq!(outcome, expected);
            assert_eq!(rows, others_rows);
        }
    }
}

/// A rows buffer that is long enough for every case.
fn rows_of(inputs: &[Input]) -> Vec<u8> {
    let lengths = inputs.iter().map(|input| input.rows_len);
    vec![0; lengths.max().expect("at least one case")]
}

/// The time of a call on one case where a turn has them all, one after the other, and a round so many turns.
fn in_turn(rounds: usize, turns: usize, inputs: &[Input], mut call: impl FnMut(&Input)) -> f64 {
    let round = best(rounds, || {
        for _ in 0..turns {
            for input in inputs {
                call(black_box(input));
            }
        }
    });
    round.as_secs_f64() * 1e6 / (turns * inputs.len()) as f64
}

/// The shortest of many rounds: others share the machine.
fn best(rounds: usize, mut round: impl FnMut()) -> Duration {
    (0..rounds)
        .map(|_| {
            let start = Instant::now();
            round();
            start.elapsed()
        })
        .min()
        .expect("at least one round")
}

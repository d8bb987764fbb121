//! Times of the proved check and settlement, beside a plain copy of the same bytes, beside the tuned settlement and
//! beside the second implementation: one process, the best of many rounds, seeded. Single cases are timed again and again;
//! forty generated ones also in turn, since the processor's branch predictor learns a case that comes
//! again at once. Cases of version 2 are timed beside the same case in version 1, its units numbered through.
//!
//!     sh scripts/library
//!     cargo run --release --offline --locked -p bench [rounds [proved]]
//!
//! With `proved` it says the names of the cases, a line each and then an empty one, and for each place in
//! that list that it is asked for on standard input the times of the proved check and settlement, in
//! microseconds and with tabs between them, and of version 2 also those of the same case in version 1:
//! so scripts/compare times two archives by turns.

mod times;

use std::env;
use std::io;
use std::slice;

use attachment_h::check;
use bench::shapes;
use cases::growth::{CASES, SEED, STEPS, full_cases_in, with_events};
use cases::{Case, Generated, Input, Version};
use times::{Calls, Times, assert_alike, proved};

const ROUNDS: usize = 400;

fn main() {
    let mut words = env::args().skip(1);
    let rounds = match words.next() {
        None => ROUNDS,
        Some(rounds) => rounds.parse().expect("a number of rounds"),
    };
    match words.next().as_deref() {
        None => {
            for version in read_versions() {
                print_tables(version, rounds);
            }
            print_pairs(rounds);
        }
        Some("proved") => answer_proved(rounds),
        Some(word) => panic!("{word} is not `proved`"),
    }
}

/// The versions that the archive reads: an older one may not read version 2.
fn read_versions() -> Vec<Version> {
    let empty = |version| Case::default().in_version(version).to_bytes();
    let reads = |&version: &Version| check(&empty(version), &[], 0).is_ok();
    Version::ALL.into_iter().filter(reads).collect()
}

fn print_tables(version: Version, rounds: usize) {
    let full = full_cases_in(version);
    let name = version.number();
    println!(
        "version {name}, seed {SEED}, best of {rounds}, in microseconds; tuned is the settlement in plain loops, second the second implementation"
    );
    Times::print_head();
    for (name, shape) in shapes::all(version, &full) {
        Times::of(rounds, slice::from_ref(&shape.input())).print(&name);
    }
    let last = CASES - 1;
    println!();
    println!(
        "version {name}, seed {SEED}, cases 0 to {last} in turn, best of {rounds}, in microseconds for a case"
    );
    Times::print_head();
    let steps = STEPS.map(|events| Times::of(rounds, &inputs(&step(&full, events))));
    let [fewest, .., most] = &steps;
    most.print("in turn");
    println!();
    println!("the same cases in turn with so many of their events, evenly spread over each kind's");
    Times::print_head();
    for (events, times) in STEPS.iter().zip(&steps) {
        times.print(&format!("in turn, {events}"));
    }
    println!(
        "times as long from {} to {} events: check {:.1}, settle {:.1}; tuned check {:.1}, tuned settle {:.1}; second check {:.1}, second settle {:.1}",
        STEPS[0],
        STEPS[STEPS.len() - 1],
        most.proved.check / fewest.proved.check,
        most.proved.settle / fewest.proved.settle,
        most.tuned.check / fewest.tuned.check,
        most.tuned.settle / fewest.tuned.settle,
        most.second.check / fewest.second.check,
        most.second.settle / fewest.second.settle,
    );
    println!();
}

/// Every case of a version that is timed, with its name: single ones, then those in turn.
fn timed(version: Version) -> Vec<(String, Vec<Generated>)> {
    let full = full_cases_in(version);
    let shapes = shapes::all(version, &full)
        .into_iter()
        .map(|(name, shape)| (name, vec![shape]));
    let steps = STEPS
        .iter()
        .map(|&events| (format!("in turn, {events}"), step(&full, events)));
    shapes.chain(steps).collect()
}

/// Cases of version 2 and the same cases in version 1.
fn pair(cases: &[Generated]) -> [Vec<Input>; 2] {
    let through: Vec<Generated> = cases.iter().map(Generated::numbered_through).collect();
    [cases, &through].map(inputs)
}

/// Cases of version 2 beside the same cases in version 1.
fn print_pairs(rounds: usize) {
    if !read_versions().contains(&Version::Two) {
        println!("this archive does not read version 2");
        return;
    }
    println!("version 2 beside the same case in version 1, best of {rounds}, in microseconds");
    println!(
        "{:>12} {:>7} {:>7} {:>6} {:>8} {:>8} {:>6}",
        "case", "check", "of 1", "ratio", "settle", "of 1", "ratio"
    );
    for (name, cases) in timed(Version::Two) {
        let [two, one] = pair(&cases).map(|inputs| {
            assert_alike(&inputs);
            proved(rounds, &inputs)
        });
        println!(
            "{name:>12} {:>7.2} {:>7.2} {:>6.3} {:>8.2} {:>8.2} {:>6.3}",
            two.check,
            one.check,
            two.check / one.check,
            two.settle,
            one.settle,
            two.settle / one.settle,
        );
    }
}

/// The times of an archive that may go by other rules than the second implementation, as they are asked for.
fn answer_proved(rounds: usize) {
    let of_1 = timed(Version::One).into_iter();
    let mut cases: Vec<(String, Vec<Vec<Input>>)> = of_1
        .map(|(name, cases)| (format!("1\t{name}"), vec![inputs(&cases)]))
        .collect();
    if read_versions().contains(&Version::Two) {
        let of_2 = timed(Version::Two).into_iter();
        cases.extend(of_2.map(|(name, cases)| (format!("2\t{name}"), Vec::from(pair(&cases)))));
    }
    for (name, _) in &cases {
        println!("{name}");
    }
    println!();
    for line in io::stdin().lines() {
        let line = line.expect("a line of standard input");
        let place: usize = line.parse().expect("the place of a case");
        let times: Vec<String> = cases[place]
            .1
            .iter()
            .map(|inputs| proved(rounds, inputs))
            .map(|Calls { check, settle }| format!("{check:.4}\t{settle:.4}"))
            .collect();
        println!("{}", times.join("\t"));
    }
}

/// The cases with so many of their events.
fn step(full: &[Generated], events: usize) -> Vec<Generated> {
    full.iter()
        .map(|generated| with_events(generated, events))
        .collect()
}

fn inputs(cases: &[Generated]) -> Vec<Input> {
    cases.iter().map(Generated::input).collect()
}

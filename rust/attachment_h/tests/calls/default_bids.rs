//! The calls of mitigated hours, bids in force and make-up (docs/RULES.md, C14 to C17).

use attachment_h::{self as proved, Cents, Component, Mask};
use cases::Random;
use second::calls;

use crate::{Answers, answer, bid, component, hour, reference, second_hour, signed, word};

#[test]
fn mitigated_span() {
    let mut random = Random::new(208);
    let mut answers = Answers::default();
    // Every two hours with every minimum run, then masks at random.
    for first in 0..24 {
        for second in 0..24 {
            for run in 0..=26 {
                let hits = 1 << first | 1 << second;
                answers.same(
                    proved::mitigated_span(Mask(hits), run),
                    answer(calls::mitigated_span(1, 0, hits, run)).map(Mask),
                    || format!("hits {hits:#x}, R {run}"),
                );
            }
        }
    }
    for _ in 0..50_000 {
        let hits = match random.below(10) {
            0 => random.bits() as u32,
            1 => 1 << random.between(22, 31),
            _ => random.hours(),
        };
        let run = random.pick(&[0, 1, 2, 3, 8, 12, 22, 23, 24, 25, 24, 0, u32::MAX]);
        answers.same(
            proved::mitigated_span(Mask(hits), run),
            answer(calls::mitigated_span(1, 0, hits, run)).map(Mask),
            || format!("hits {hits:#x}, R {run}"),
        );
    }
    assert_eq!(proved::mitigated_span(Mask(0), 24), Ok(Mask(0)));
    answers.done("mitigated_span", false);
}

#[test]
fn bids_in_force() {
    let mut random = Random::new(209);
    let (mut plain, mut corrected) = (Answers::default(), Answers::default());
    for _ in 0..200_000 {
        let (component, hour) = (component(&mut random), hour(&mut random));
        let r = reference(&mut random);
        let c = match random.below(3) {
            0 => r,
            1 => r.wrapping_add(random.between(-1, 1) as u32),
            _ => reference(&mut random),
        };
        let near_reference = random.pick(&[r, c]);
        let bid = bid(&mut random, near_reference);
        let mitigated = random.chance(2, 3);
        plain.same(
            proved::bid_in_force(Component(component), bid, r, mitigated),
            answer(calls::bid_in_force(component, r, bid, mitigated)),
            || format!("component {component}, r {r}, a {bid}, mitigated {mitigated}"),
        );
        corrected.same(
            proved::corrected_bid_in_force(Component(component), bid, r, c, hour, mitigated),
            answer(calls::bid_in_force_with_correct_reference(
                component,
                second_hour(hour),
                r,
                c,
                bid,
                mitigated,
            )),
            || {
                format!(
                    "component {component}, r {r}, c {c}, a {bid}, mitigated {mitigated}, {hour:?}"
                )
            },
        );
    }
    plain.done("bid_in_force", true);
    corrected.done("corrected_bid_in_force", true);
}

#[test]
fn make_up() {
    let mut random = Random::new(210);
    let mut answers = Answers::default();
    for _ in 0..150_000 {
        let r = word(&mut random, &[0, 2_000, 5_000, 6_000, 1_000_000]);
        let c = match random.below(3) {
            0 => r,
            _ => word(&mut random, &[0, 2_000, 5_000, 6_000, 1_000_000]),
        };
        let a = match random.below(2) {
            0 => signed(&mut random, &[-1_000_000, 0, 5_000, 1_000_000]),
            _ => c as i32,
        };
        let b = match random.below(2) {
            0 => signed(&mut random, &[-1_000_000, 0, 5_000, 1_000_000]),
            _ => a.min(c as i32).wrapping_sub(random.between(-2, 9) as i32),
        };
        let m = word(&mut random, &[0, 1, 5, 1_000, 50_000]);
        answers.same(
            proved::make_up(a, b, m, r, c),
            answer(calls::make_up_of_one_hour(r, c, a, b, m)).map(Cents),
            || format!("a {a}, b {b}, m {m}, r {r}, c {c}"),
        );
    }
    answers.done("make_up", true);
}

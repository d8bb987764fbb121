//! The calls of the conduct tests (docs/RULES.md, C4 to C7).

use attachment_h::{self as proved, Component, Times};
use cases::Random;
use second::calls;

use crate::{Answers, answer, bid, component, hour, reference, second_hour, signed, word};

#[test]
fn bid_fails() {
    let mut random = Random::new(201);
    let mut answers = Answers::default();
    for _ in 0..200_000 {
        let (component, hour) = (component(&mut random), hour(&mut random));
        let reference = reference(&mut random);
        let mut bid = bid(&mut random, reference);
        if random.chance(1, 4) && hour.constrained_hours > 0 {
            // Next to the line of the tight clause.
            let increase =
                1_752 * i64::from(hour.average_price) / (10 * i64::from(hour.constrained_hours));
            bid = (i64::from(reference) + increase + random.between(-1, 2)) as i32;
        }
        answers.same(
            proved::bid_fails(Component(component), reference, bid, hour),
            answer(calls::bid_test(
                component,
                second_hour(hour),
                reference,
                bid,
            )),
            || format!("component {component}, r {reference}, a {bid}, {hour:?}"),
        );
    }
    answers.done("bid_fails", true);
}

#[test]
fn times_fail() {
    let mut random = Random::new(202);
    let mut answers = Answers::default();
    let edges = [
        0,
        60,
        120,
        121,
        180,
        181,
        360,
        361,
        -1_000_000_000,
        1_000_000_000,
    ];
    for _ in 0..100_000 {
        let mut increases = [(); 3].map(|()| signed(&mut random, &edges));
        if random.chance(1, 2) {
            // Next to a sum of 360.
            increases[2] = (360 - i64::from(increases[0]) - i64::from(increases[1])) as i32;
            increases[2] = increases[2].wrapping_add(random.below(2) as i32);
        }
        let [x, y, z] = increases;
        answers.same(
            proved::times_fail(x, y, z),
            answer(calls::time_increases_test(increases)).map(
                |[start_up, minimum_run, minimum_down]| Times {
                    start_up,
                    minimum_run,
                    minimum_down,
                },
            ),
            || format!("{increases:?}"),
        );
    }
    answers.done("times_fail", false);
}

/// S and G at the lines and at their limit.
const SUMS: [i64; 10] = [
    0, 500, 501, 1_000, 1_001, 2_000, 2_001, 5_000, 20_000, 3_200_000,
];

#[test]
fn withheld_and_dispatch_fail() {
    let mut random = Random::new(203);
    let (mut withheld, mut dispatch) = (Answers::default(), Answers::default());
    for _ in 0..150_000 {
        let capability = word(&mut random, &[1, 10, 5_000, 10_000, 15_000, 50_000]);
        let a = match random.below(3) {
            0 => word(&mut random, &[0, 500, 501, 1_000, 1_001, 50_000]),
            1 => capability
                .wrapping_add(random.below(3) as u32)
                .wrapping_sub(1),
            _ => (capability / 10).wrapping_add(random.below(3) as u32),
        };
        let s = word(&mut random, &SUMS);
        let g = match random.below(2) {
            0 => word(&mut random, &SUMS),
            _ => s.wrapping_mul(20).wrapping_add(random.below(3) as u32),
        };
        let tight = random.chance(1, 2);
        withheld.same(
            proved::withheld_fails(a, capability, s, g, tight),
            answer(calls::withheld_test(a, capability, s, g, tight)),
            || format!("a {a}, capability {capability}, S {s}, G {g}, tight {tight}"),
        );
        let rate = word(&mut random, &[0, 1, 33, 34, 66, 67, 3_333, 50_000]);
        let a = match random.below(2) {
            0 => a,
            _ => rate.wrapping_mul(15).wrapping_add(random.below(3) as u32),
        };
        dispatch.same(
            proved::dispatch_fails(a, rate, s, tight),
            answer(calls::dispatch_test(a, rate, s, tight)),
            || format!("a {a}, rate {rate}, S {s}, tight {tight}"),
        );
    }
    withheld.done("withheld_fails", false);
    dispatch.done("dispatch_fails", false);
}

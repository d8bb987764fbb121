//! The calls of multipliers and penalties (docs/RULES.md, C8 to C11).

use attachment_h::{self as proved, Cents, Multiplier, Refused};
use cases::Random;
use second::calls;

use crate::{Answers, answer, signed, word};

#[test]
fn multiplier() {
    let mut answers = Answers::default();
    for n3 in 0..=460 {
        for n2 in 0..=461 {
            answers.same(
                proved::multiplier(n3, n2),
                answer(calls::multiplier(n3 as u16, n2 as u16)).map(Multiplier),
                || format!("N3 {n3}, N2 {n2}"),
            );
        }
    }
    // Words that 16 bits would take for good counts.
    for (n3, n2) in [(65_537, 1), (65_540, 4), (4, 65_537), (u32::MAX, u32::MAX)] {
        answers.same(proved::multiplier(n3, n2), Err(Refused(10)), || {
            format!("N3 {n3}, N2 {n2}")
        });
    }
    answers.done("multiplier", false);
}

#[test]
fn withheld_penalty() {
    let mut random = Random::new(204);
    let mut answers = Answers::default();
    let multipliers = [2, 2, 4, 4, 6, 6, 1, 3, 5, 7, 8, 255];
    let powers = [0, 1, 500, 501, 50_000];
    let prices = [-1_000_000, -100, 0, 1, 4_000, 4_005, 1_000_000];
    for _ in 0..60_000 {
        let multiplier = random.pick(&multipliers);
        let (a, b) = (word(&mut random, &powers), signed(&mut random, &prices));
        answers.same(
            proved::withheld_penalty(Multiplier(multiplier), &[a], &[b]),
            answer(calls::withheld_penalty_of_one_hour(multiplier, a, b)).map(Cents),
            || format!("multiplier {multiplier}, a {a}, b {b}"),
        );
    }
    several_hours(&mut random, &mut answers);
    let most = proved::withheld_penalty(Multiplier(6), &[50_000; 24], &[1_000_000; 24]);
    assert_eq!(most, Ok(Cents(360_000_000_000)));
    assert_eq!(
        proved::withheld_penalty(Multiplier(6), &[], &[]),
        Ok(Cents(0))
    );
    answers.done("withheld_penalty", false);
}

/// Up to a day of flagged hours; the sum is rounded once.
fn several_hours(random: &mut Random, answers: &mut Answers) {
    for _ in 0..20_000 {
        let multiplier = random.pick(&[0, 2, 4, 6]);
        let hours = random.below(27);
        let other = if random.chance(1, 20) {
            random.below(27)
        } else {
            hours
        };
        let mut a: Vec<u32> = (0..hours)
            .map(|_| random.between(0, 50_000) as u32)
            .collect();
        let mut b: Vec<i32> = (0..other)
            .map(|_| random.between(-300_000, 1_000_000) as i32)
            .collect();
        if hours > 0 && random.chance(1, 10) {
            a[random.below(hours)] = random.pick(&[50_001, u32::MAX]);
        }
        if other > 0 && random.chance(1, 10) {
            b[random.below(other)] = random.pick(&[-1_000_001, 1_000_001, i32::MIN, i32::MAX]);
        }
        answers.same(
            proved::withheld_penalty(Multiplier(multiplier), &a, &b),
            penalty_of_several_hours(multiplier, &a, &b),
            || format!("multiplier {multiplier}, a {a:?}, b {b:?}"),
        );
    }
}

/// Worked here, since the second implementation has the penalty of one flagged hour.
fn penalty_of_several_hours(multiplier: u8, a: &[u32], b: &[i32]) -> Result<Cents, Refused> {
    let good = a.len() == b.len()
        && a.len() <= 24
        && a.iter().all(|&power| power <= 50_000)
        && b.iter()
            .all(|price| (-1_000_000..=1_000_000).contains(price));
    let twentieths: i128 = a
        .iter()
        .zip(b)
        .map(|(&power, &price)| i128::from(power) * i128::from(price.max(0)))
        .sum::<i128>()
        * i128::from(multiplier);
    if good {
        Ok(Cents(((twentieths + 10) / 20) as u64))
    } else {
        Err(Refused(10))
    }
}

#[test]
fn dispatch_penalty() {
    let mut random = Random::new(205);
    let mut answers = Answers::default();
    for _ in 0..40_000 {
        let b = word(&mut random, &[0, 1, 2, 3, 99_999_999, 100_000_000]);
        answers.same(
            proved::dispatch_penalty(&[b]),
            answer(calls::dispatch_penalty_of_one_hour(b)).map(Cents),
            || format!("b {b}"),
        );
    }
    for _ in 0..20_000 {
        let hours = random.below(27);
        let mut b: Vec<u32> = (0..hours)
            .map(|_| random.between(0, 100_000_000) as u32)
            .collect();
        if hours > 0 && random.chance(1, 10) {
            b[random.below(hours)] = random.pick(&[100_000_001, u32::MAX]);
        }
        let good = hours <= 24 && b.iter().all(|&revenue| revenue <= 100_000_000);
        let revenue: u64 = b.iter().map(|&revenue| u64::from(revenue)).sum();
        let expected = if good {
            Ok(Cents((3 * revenue).div_ceil(2)))
        } else {
            Err(Refused(10))
        };
        answers.same(proved::dispatch_penalty(&b), expected, || {
            format!("b {b:?}")
        });
    }
    answers.done("dispatch_penalty", false);
}

/// E next to the cut, below 0 and at its limits.
const ENERGIES: [i64; 9] = [
    0,
    5_000_000,
    4_999_990,
    3_333_333,
    3_333_334,
    -10_000_000,
    100_000_000_000_000,
    -100_000_000_000_000,
    1_000_000_000,
];

#[test]
fn fuel_penalty() {
    let mut random = Random::new(206);
    let mut answers = Answers::default();
    for _ in 0..200_000 {
        let m = random.pick(&[2, 2, 2, 2, 3, 3, 3, 3, 1, 4, 0, 255]);
        let e = match random.below(10) {
            0 => random.bits() as i64,
            1 => random.pick(&[i64::MIN, i64::MAX, -1]),
            2..=5 => random.pick(&ENERGIES) + random.between(-2, 2),
            _ => random.between(-20_000_000, 20_000_000),
        };
        let t = match random.below(6) {
            0 => random.bits(),
            1 => random.pick(&[64_000_000_000, 64_000_000_001, 0]),
            // Next to the cut at X 10,000,000.
            2 | 3 => {
                let rest = (10_000_000 - i128::from(m) * i128::from(e)) / 20;
                (rest + i128::from(random.between(-1, 1))) as u64
            }
            _ => random.between(0, 3_000_000) as u64,
        };
        answers.same(
            proved::fuel_penalty(e, t, Multiplier(m)),
            answer(calls::fuel_penalty(e, t, m)).map(Cents),
            || format!("E {e}, T {t}, M {m}"),
        );
    }
    answers.done("fuel_penalty", false);
}

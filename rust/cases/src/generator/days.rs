//! The days of a random case: at and next to the edges of fuel windows, months and capability periods.

use std::collections::BTreeSet;

use crate::calendar::{
    FIRST_DAY_BEYOND, day_of, first_of_month, first_of_period, period_of, window_start,
};
use crate::random::Random;

/// Days are chosen from so many capability periods before: N3 looks two back, so that the last two are out.
const PERIODS_BEFORE: i64 = 4;

/// A day that a case may name, so many days after another.
fn after(day: u32, days: i64) -> u32 {
    (i64::from(day) + days).clamp(0, i64::from(FIRST_DAY_BEYOND) - 1) as u32
}

/// The days of a case's events, different and in order; a full case has more of them.
pub fn days(random: &mut Random, full: bool) -> Vec<u32> {
    let last = last_day(random);
    let first = window_start(last);
    let mut near = vec![
        after(last, -1),
        after(last, 1),
        after(first, -1),
        first,
        after(first, 1),
        window_start(first),
    ];
    near.extend((1..=PERIODS_BEFORE).filter_map(|before| day_of_period(random, last, before)));
    let mut days: BTreeSet<u32> = near.into_iter().filter(|_| random.chance(1, 2)).collect();
    days.insert(last);
    if full {
        days.extend((2..6).map(|before| last.max(5) - before));
    }
    days.into_iter().collect()
}

/// The day that the other days of a case are chosen by.
fn last_day(random: &mut Random) -> u32 {
    let year = 2000 + random.below(100) as u32;
    match random.below(8) {
        // Windows that day 0 cuts, and the first ones that it does not.
        0 => random.below(215) as u32,
        1 => after(FIRST_DAY_BEYOND, -random.between(1, 3)),
        2 => 8_000,
        // The ends of months, which windows begin at where the month six months before is shorter.
        3 => first_of_month(random.between(1, 1_200) as u32) - random.between(1, 4) as u32,
        // Windows from the end of February, and such as end there.
        4 => day_of(year, 8, random.between(27, 31) as u32),
        5 => after(day_of(year, 3, 1), random.between(-2, 0)),
        6 => first_of_period(random.between(1, 200) as u16) - random.below(2) as u32,
        _ => random.below(FIRST_DAY_BEYOND as usize) as u32,
    }
}

/// The first day, the last day or any day of the capability period so many before that of a day, where there is one.
fn day_of_period(random: &mut Random, day: u32, before: i64) -> Option<u32> {
    let period = u16::try_from(i64::from(period_of(day)) - before).ok()?;
    let first = first_of_period(period);
    if first >= FIRST_DAY_BEYOND {
        return None;
    }
    let last = after(first_of_period(period + 1), -1);
    let any = random.between(first.into(), last.into()) as u32;
    Some(random.pick(&[first, last, any]))
}

/// The day of a past entry beside an event of a day: at or next to an edge of its window, or in a capability period from
/// the one after its own to four before.
pub fn past_day(random: &mut Random, day: u32) -> u32 {
    if random.chance(1, 2) {
        let before = random.between(-1, PERIODS_BEFORE);
        day_of_period(random, day, before).unwrap_or(day)
    } else {
        let (edge, days) = random.pick(&[
            (day, 1),
            (day, 0),
            (day, -1),
            (day, -2),
            (day, -100),
            (window_start(day), 1),
            (window_start(day), 0),
            (window_start(day), -1),
            (window_start(day), -2),
        ]);
        after(edge, days)
    }
}

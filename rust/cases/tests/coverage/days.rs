//! The days of events and past entries: the ends of the calendar, of months and of capability periods.

use cases::calendar::{FIRST_DAY_BEYOND, first_of_month, first_of_period, month_and_day};

use crate::Reached;
use crate::settled::Settled;

pub fn reach(reached: &mut Reached, settled: &Settled) {
    let case = settled.case;
    for event in &case.events {
        reach_day(reached, "event", event.day, event.period);
    }
    for entry in &case.past {
        reach_day(reached, "past entry", entry.day, entry.period);
    }
}

fn reach_day(reached: &mut Reached, what: &str, day: u32, period: u16) {
    let (month, of_the_month) = month_and_day(day);
    reached.add_if(day == 0, &format!("{what} on the first day"));
    let last = FIRST_DAY_BEYOND - 1;
    reached.add_if(day == last, &format!("{what} on the last day"));
    reached.add_if(month < 6, &format!("{what} in the first six months"));
    reached.add_if(
        day + 1 == first_of_month(month + 1),
        &format!("{what} on the last of {of_the_month} days"),
    );
    let season = ["Winter", "Summer"][usize::from(period % 2)];
    reached.add_if(
        day == first_of_period(period),
        &format!("{what} on the first day of a {season}"),
    );
    reached.add_if(
        day + 1 == first_of_period(period + 1),
        &format!("{what} on the last day of a {season}"),
    );
}

pub fn edges() -> Vec<String> {
    let mut expected = Vec::new();
    for what in ["event", "past entry"] {
        for day in [
            "on the first day",
            "on the last day",
            "in the first six months",
        ] {
            expected.push(format!("{what} {day}"));
        }
        for days in 28..=31 {
            expected.push(format!("{what} on the last of {days} days"));
        }
        for season in ["Winter", "Summer"] {
            expected.push(format!("{what} on the first day of a {season}"));
            expected.push(format!("{what} on the last day of a {season}"));
        }
    }
    expected
}

//! The calendar beside the stored table of months, on every day from 2000 to 2099.

mod support;

use attachment_h::{Refused, period_of};
use casetool::text::calendar::{date, day_of, numeric_date};
use support::repository;

const MONTHS: [&str; 12] = [
    "January",
    "February",
    "March",
    "April",
    "May",
    "June",
    "July",
    "August",
    "September",
    "October",
    "November",
    "December",
];

/// The day after 31 December 2099.
const END: u32 = 36_525;

/// The day number of the first day of each month, as the program `month_starts` prints it.
fn month_starts() -> Vec<u32> {
    let table = std::fs::read_to_string(repository("crates/month_starts/stdout"));
    let table = table.expect("the table");
    let starts = table.lines().map(|line| line.parse().expect("a day"));
    starts.collect()
}

/// Every day, with how many months before its own there are since January 2000, and its place in the month from 1.
fn days() -> Vec<(u32, usize, u32)> {
    let starts = month_starts();
    assert_eq!((starts.len(), starts[0], starts[2]), (1_200, 0, 60));
    let ends = starts[1..].iter().copied().chain([END]);
    let months = starts.iter().copied().zip(ends).enumerate();
    let days = months.flat_map(|(months, (start, end))| {
        (start..end).map(move |day| (day, months, day - start + 1))
    });
    days.collect()
}

#[test]
fn every_day_has_its_date() {
    let days = days();
    assert!(days.iter().map(|(day, ..)| *day).eq(0..END));
    for (day, months, of_month) in days {
        let (year, month) = (2000 + months / 12, months % 12);
        assert_eq!(date(day), format!("{of_month} {} {year}", MONTHS[month]));
        let numeric = format!("{year}-{:02}-{of_month:02}", month + 1);
        assert_eq!(numeric_date(day), numeric);
        assert_eq!(day_of(&numeric), Some(day), "{numeric}");
    }
}

#[test]
fn every_day_has_its_period() {
    for (day, months, _) in days() {
        let period = u16::try_from((months + 2) / 6);
        assert_eq!(period_of(day).ok(), period.ok(), "{}", date(day));
    }
    for (date, period) in [
        ("2000-01-01", 0),
        ("2000-04-30", 0),
        ("2000-05-01", 1),
        ("2000-10-31", 1),
        ("2000-11-01", 2),
        ("2021-10-31", 43),
        ("2021-11-26", 44),
        ("2099-12-31", 200),
    ] {
        assert_eq!(period_of(day_of(date).expect("a date")), Ok(period));
    }
    assert_eq!(period_of(END), Err(Refused(10)));
    assert_eq!(date(END), "1 January 2100");
}

#[test]
fn a_month_has_no_day_after_its_last() {
    let starts = month_starts();
    for (months, pair) in starts.windows(2).enumerate() {
        let after = pair[1] - pair[0] + 1;
        let date = format!("{}-{:02}-{after:02}", 2000 + months / 12, months % 12 + 1);
        assert_eq!(day_of(&date), None, "{date}");
    }
}

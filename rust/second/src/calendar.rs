//! The days of 2000 to 2099 by months, and what goes by them: fuel windows and capability periods.

use std::ops::Range;

/// The days of the calendar; the last, 36,524, is 31 December 2099.
pub const CALENDAR_DAYS: u32 = 36_525;

/// A date of the calendar.
struct Date {
    /// Months since January 2000.
    month: u32,
    /// Days since the first of the month.
    day: u32,
}

impl Date {
    fn of(day: u32) -> Date {
        // Four years have 1,461 days, and the first of them is the leap year.
        let year = 4 * day / 1_461;
        let mut date = Date {
            month: 12 * year,
            day: day - first_day(12 * year),
        };
        while date.day >= length(date.month) {
            date.day -= length(date.month);
            date.month += 1;
        }
        date
    }
}

/// The number of days of a month, counted from January 2000.
fn length(month: u32) -> u32 {
    match month % 12 {
        // From 2000 to 2099 every fourth year is a leap year.
        1 if (month / 12).is_multiple_of(4) => 29,
        1 => 28,
        3 | 5 | 8 | 10 => 30,
        _ => 31,
    }
}

/// The first day of a month, counted from January 2000.
fn first_day(month: u32) -> u32 {
    let year = month / 12;
    let leap_days = year.div_ceil(4);
    365 * year + leap_days + (12 * year..month).map(length).sum::<u32>()
}

/// The days whose fuel penalties raise M on a day of the calendar: six months by the date, without the day itself.
pub fn fuel_window(day: u32) -> Range<u32> {
    let date = Date::of(day);
    let start = match date.month.checked_sub(6) {
        // The month may be too short to have the day.
        Some(month) => first_day(month) + date.day.min(length(month) - 1),
        None => 0,
    };
    start..day
}

/// The capability period of a day of the calendar.
pub fn period_of(day: u32) -> u16 {
    // Two months of period 0 lie before 2000.
    ((Date::of(day).month + 2) / 6) as u16
}

//! The days, months, windows and capability periods of the years 2000 to 2099, for cases that name their days.
//!
//! Years are counted from their 1 March, so that a leap day is a year's last day.

/// The first day that no case may name, 1 January 2100.
pub const FIRST_DAY_BEYOND: u32 = 36_525;

/// Months from March 1996, after which every fourth year has 366 days, to January 2000.
const MONTHS_BEFORE: u32 = 46;
/// Days from 1 March 1996 to 1 January 2000.
const DAYS_BEFORE: u32 = 1_401;

/// Days from 1 March of the first year to that of another.
fn days_of_years(years: u32) -> u32 {
    1_461 * years / 4
}

/// Days from 1 March to the first day of the month so many months later.
fn days_of_months(months: u32) -> u32 {
    (153 * months + 2) / 5
}

/// The first day of a month, the months counted from January 2000.
pub fn first_of_month(month: u32) -> u32 {
    let months = month + MONTHS_BEFORE;
    days_of_years(months / 12) + days_of_months(months % 12) - DAYS_BEFORE
}

/// The month of a day, counted from January 2000, and the day of the month, counted from 1.
pub fn month_and_day(day: u32) -> (u32, u32) {
    let days = day + DAYS_BEFORE;
    let years = (4 * days + 3) / 1_461;
    let of_the_year = days - days_of_years(years);
    let months = (5 * of_the_year + 2) / 153;
    let of_the_month = of_the_year - days_of_months(months) + 1;
    (12 * years + months - MONTHS_BEFORE, of_the_month)
}

/// The day of a date of the years 2000 to 2099, month and day counted from 1.
pub fn day_of(year: u32, month: u32, day: u32) -> u32 {
    first_of_month(12 * (year - 2000) + month - 1) + day - 1
}

/// The capability period of a day, and 0 for a day that no case may name.
pub fn period_of(day: u32) -> u16 {
    if day < FIRST_DAY_BEYOND {
        ((month_and_day(day).0 + 2) / 6) as u16
    } else {
        0
    }
}

/// The first day of a capability period, which is day 0 for period 0.
pub fn first_of_period(period: u16) -> u32 {
    let month = (6 * u32::from(period)).saturating_sub(2);
    first_of_month(month)
}

/// The first day whose fuel penalty counts on a day.
pub fn window_start(day: u32) -> u32 {
    let (month, of_the_month) = month_and_day(day);
    let Some(earlier) = month.checked_sub(6) else {
        return 0;
    };
    let same_day = first_of_month(earlier) + of_the_month - 1;
    same_day.min(first_of_month(earlier + 1) - 1)
}
